! The first image fails, within a critical construct. The others go on with critical constructs, allocate and deallocate.
program failed_first
  use iso_fortran_env
  implicit none
  integer, save :: counter[*]
  integer, allocatable :: one[:], array(:)[:]
  integer :: me, n, st, i, number
  character(40) :: text

  me = this_image()
  n = num_images()
  counter = 0
  sync all
  if (n == 1) stop
  if (me == 1) then
    critical
      counter[n] = 100
      call fails()
    end critical
  end if
  do while (image_status(1) /= stat_failed_image)
    sync memory
  end do
  do i = 1, 20
    critical ! its lock is the first image's
      number = counter[n]
      counter[n] = number + 1
    end critical
  end do
  sync all (stat=st)
  call check(counter[n] == 100 + 20*(n - 1), 'critical constructs')
  ! gfortran 12 sets no bounds where the stat= of an allocate isn't 0.
  allocate (one[*], stat=st, errmsg=text)
  call check(st == 0 .and. allocated(one), 'allocate of a scalar')
  allocate (array(-1:3)[*], stat=st)
  call check(st == 0 .and. allocated(array) .and. lbound(array, 1) == -1, 'allocate of an array')
  one = me
  array = me*[1, 2, 3, 4, 5]
  sync all (stat=st)
  call check(st == stat_failed_image .and. one[n] == n .and. all(array(:)[n] == n*[1, 2, 3, 4, 5]), 'what was allocated')
  deallocate (one, stat=st, errmsg=text)
  call check(st == stat_failed_image .and. text(1:10) == 'deallocate' .and. .not. allocated(one), 'deallocate of a scalar')
  deallocate (array, stat=st)
  call check(st == stat_failed_image .and. .not. allocated(array), 'deallocate of an array')
  allocate (array(2)[*], stat=st)
  call check(st == 0, 'allocate again')
  array = -me
  sync all (stat=st)
  call check(all(array(:)[n] == -n), 'what was allocated again')
  deallocate (array, stat=st)
  if (me == 2) print *, 'failed_first: done'
  stop
contains
  subroutine fails()
    fail image
  end subroutine
  include 'checks.inc'
end program
