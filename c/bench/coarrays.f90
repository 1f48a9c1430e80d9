! The speed of halos and of co_sum, on as many images as there are. c/bench/coarrays.sh runs it on several libraries.
program coarrays
  use iso_fortran_env, only: int64
  implicit none
  integer, parameter :: widths(3) = [64, 1024, 16384], lengths(3) = [1, 1024, 65536]
  real(8), allocatable :: field(:, :)[:], values(:)
  integer :: me, n, left, right, i

  me = this_image()
  n = num_images()
  left = mod(me + n - 2, n) + 1
  right = mod(me, n) + 1
  allocate (field(widths(3), 0:3)[*], values(lengths(3)))
  field = me
  do i = 1, 3
    call halo(widths(i), 4000/i**2)
  end do
  do i = 1, 3
    call summed(lengths(i), 4000/i**3)
  end do
contains
  ! Each image puts a column to both neighbours, and all synchronise with theirs before they use it, and behind that.
  subroutine halo(width, steps)
    integer, intent(in) :: width, steps
    integer(int64) :: begun
    integer :: step
    sync all
    begun = now()
    do step = 1, steps
      field(1:width, 3)[left] = field(1:width, 1)
      field(1:width, 0)[right] = field(1:width, 2)
      sync all
      field(1:width, 1) = 0.5d0*(field(1:width, 0) + field(1:width, 2))
      field(1:width, 2) = 0.5d0*(field(1:width, 1) + field(1:width, 3))
      sync all
    end do
    call tell('halo of', width, steps, begun)
  end subroutine

  subroutine summed(length, steps)
    integer, intent(in) :: length, steps
    integer(int64) :: begun
    integer :: step
    values = 1
    sync all
    begun = now()
    do step = 1, steps
      call co_sum(values(1:length))
      values(1:length) = values(1:length)/n
    end do
    call tell('co_sum of', length, steps, begun)
    if (any(values(1:length) /= 1)) error stop 'the sum is wrong'
  end subroutine

  integer(int64) function now()
    call system_clock(now)
  end function

  subroutine tell(what, count, steps, begun)
    character(*), intent(in) :: what
    integer, intent(in) :: count, steps
    integer(int64), intent(in) :: begun
    integer(int64) :: rate, ended
    sync all
    call system_clock(ended, rate)
    if (me == 1) print '(a, i0, a, f0.1, a)', what//' ', count, ' numbers: ', (ended - begun)*1d6/rate/steps, ' us'
  end subroutine
end program
