! Pi by random points: each image has its own, and the counts are summed.
program points
  use iso_fortran_env, only: int64
  implicit none
  integer(int64), parameter :: many = 400000
  integer(int64) :: i, inside
  real(8) :: x, y

  call random_init(repeatable=.true., image_distinct=.true.)
  inside = 0
  do i = 1, many
    call random_number(x)
    call random_number(y)
    if (x*x + y*y < 1) inside = inside + 1
  end do
  call co_sum(inside)
  if (this_image() == num_images()) then
    print '(a, i0, a, f0.2)', 'pi of ', num_images(), ' images: ', 4*real(inside, 8)/(many*num_images())
  end if
end program
