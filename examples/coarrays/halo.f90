! Heat on a ring of cells, of which each image has an equal part. A step needs the cell beyond each end of the part, so
! each image puts its outermost cells to its two neighbours: a halo exchange. The heat begins as one wave around the
! ring, whose height after any number of steps has a formula, so each image knows what its cells have to be.
program halo
  implicit none
  integer, parameter :: ring = 240
  real(8), parameter :: pi = acos(-1d0)
  real(8), save :: left(0:1)[*], right(0:1)[*]   ! the cells beyond the ends, those of even steps and those of odd ones
  real(8), allocatable :: cells(:), wave(:)
  integer :: me, n, part, before, after, steps, step, set, i
  character(20) :: word

  call get_command_argument(1, word)
  steps = 1000
  if (word /= '') read (word, *) steps
  me = this_image()
  n = num_images()
  part = ring/n
  if (part*n /= ring) error stop 'halo: the parts have to be equal'
  before = merge(n, me - 1, me == 1)
  after = merge(1, me + 1, me == n)
  allocate (cells(0:part + 1), wave(part))
  wave = [(cos(2*pi*((me - 1)*part + i)/ring), i=0, part - 1)]
  cells(1:part) = wave
  do step = 1, steps
    set = mod(step, 2)
    right(set)[before] = cells(1)
    left(set)[after] = cells(part)
    sync all
    cells(0) = left(set)
    cells(part + 1) = right(set)
    cells(1:part) = (cells(0:part - 1) + 2*cells(1:part) + cells(2:part + 1))/4
  end do
  if (any(abs(cells(1:part) - cos(pi/ring)**(2*steps)*wave) > 1d-12)) error stop 'halo: a cell is wrong'
  if (me == 1) print '(2(a, i0), a, f6.4)', 'halo of ', n, ' images: after ', steps, ' steps the height is ', cells(1)
end program
