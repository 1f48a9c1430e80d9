! Heat in a rod: the rod is cut into equal parts, one an image. Each step takes the neighbours' outermost cells.
program heat
  implicit none
  integer, parameter :: cells = 100, steps = 400
  real(8), allocatable :: rod(:)[:], next(:)
  real(8) :: total
  integer :: me, n, step

  me = this_image()
  n = num_images()
  allocate (rod(0:cells + 1)[*], next(cells))
  rod = 0
  if (me == 1) rod(0) = 100                 ! one end is held at 100 degrees, the other one at 0
  do step = 1, steps
    sync all
    if (me > 1) rod(cells + 1)[me - 1] = rod(1)
    if (me < n) rod(0)[me + 1] = rod(cells)
    sync all
    next = rod(1:cells) + 0.25d0*(rod(0:cells - 1) - 2*rod(1:cells) + rod(2:cells + 1))
    rod(1:cells) = next
  end do
  total = sum(rod(1:cells))
  call co_sum(total, result_image=1)
  if (me == 1) print '(a, i0, a, f0.3, a, f0.3)', 'heat of ', n, ' images: the sum is ', total, ', the tenth cell has ', rod(10)
end program
