! Reductions of few elements of 16 KiB: one more than images, and seven for each image.
module wides
  implicit none
  type wide
    integer :: numbers(4096)
  end type
contains
  pure type(wide) function sum_of(a, b)
    type(wide), intent(in) :: a, b
    sum_of = wide(a%numbers + b%numbers)
  end function
end module

program shares
  use wides
  implicit none
  integer :: me, n, turn
  me = this_image()
  n = num_images()
  do turn = 1, 10
    call reduce(n + 1)
    call greatest(n + 1)
  end do
  call reduce(7*n)
  if (me == 1) print *, 'shares: done'
contains
  subroutine reduce(count)
    integer, intent(in) :: count
    type(wide), allocatable :: values(:)
    integer :: i, k
    allocate (values(count))
    do i = 1, count
      values(i)%numbers = [(me*i + k + turn, k=1, 4096)]
    end do
    call co_reduce(values, sum_of)
    do i = 1, count
      call check(all(values(i)%numbers == [(n*(n + 1)/2*i + n*(k + turn), k=1, 4096)]), 'a sum of long elements')
    end do
  end subroutine
  subroutine greatest(count)
    integer, intent(in) :: count
    character(16384), allocatable :: texts(:)
    integer :: i
    allocate (texts(count))
    do i = 1, count
      texts(i) = repeat(char(64 + mod(me + i, n)), 16384)
    end do
    call co_max(texts)
    do i = 1, count
      call check(texts(i) == repeat(char(64 + n - 1), 16384), 'the greatest of long texts')
    end do
  end subroutine
  include 'checks.inc'
end program
