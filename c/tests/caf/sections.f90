! Gets and sends of sections: ranks, strides, vectors, empty ones, and those of components. Each image works on the next one.
module checks
  implicit none
contains
  subroutine check(is_right, what)
    logical, intent(in) :: is_right
    character(*), intent(in) :: what
    if (.not. is_right) then
      print *, 'image', this_image(), ': ', what
      error stop 1
    end if
  end subroutine
end module

program sections
  use checks
  implicit none
  type point
    integer :: number
    real(8) :: x(3)
    character(4) :: name
  end type
  integer, save :: line(20)[*], grid(0:9, -3:4)[*], box(3, 4, 5)[*], scalar[*]
  type(point), save :: points(6)[*]
  character(5), save :: words(4)[*]
  integer, allocatable :: free(:, :)[:]
  integer :: me, other, from, whole(20), i, j, k, few(3), v(3), plane(3, 5), part(4, 3), sixty(60), w8
  integer(8) :: long(2)
  integer(1) :: tiny(2)
  type(point) :: mine(6)
  character(5) :: texts(4)

  me = this_image()
  other = mod(me, num_images()) + 1
  from = mod(me + num_images() - 2, num_images()) + 1
  line = [(1000*me + i, i=1, 20)]
  grid = reshape([(10000*me + i, i=1, 80)], [10, 8])
  box = reshape([(1000*me + i, i=1, 60)], [3, 4, 5])
  scalar = 7*me
  do i = 1, 6
    points(i) = point(me*10 + i, [i, 2*i, 3*i]*1d0, 'p'//char(64 + i)//'xy')
    if (i < 5) words(i) = char(64 + me)//char(64 + i)//'abc'
  end do
  sync all

  ! Gets.
  call check(scalar[other] == 7*other, 'a scalar')
  whole = line(:)[other]
  call check(all(whole == [(1000*other + i, i=1, 20)]), 'a whole line')
  whole(1:7) = line(2:20:3)[other]
  call check(all(whole(1:7) == [(1000*other + i, i=2, 20, 3)]), 'a stride')
  whole(20:1:-1) = line(:)[other]
  call check(all(whole == [(1000*other + i, i=20, 1, -1)]), 'a stride of -1 here')
  whole(1:5) = line(10:2:-2)[other]
  call check(all(whole(1:5) == [(1000*other + i, i=10, 2, -2)]), 'a stride of -2 there')
  plane = box(:, 2, :)[other]
  do j = 1, 5
    call check(all(plane(:, j) == [(1000*other + i + 3 + 12*(j - 1), i=1, 3)]), 'a plane')
  end do
  part(1:3:2, :) = box(1:3:2, 3, 1:5:2)[other]
  do j = 1, 3
    call check(all(part(1:3:2, j) == [(1000*other + i + 6 + 24*(j - 1), i=1, 3, 2)]), 'strides in two dimensions')
  end do
  sixty = reshape(box(:, :, :)[other], [60])
  call check(all(sixty == [(1000*other + i, i=1, 60)]), 'three dimensions')
  v = [3, 20, 1]
  few = line(v)[other]
  call check(all(few == 1000*other + v), 'a vector')
  v = [9, 0, 4]
  few = grid(v, -1)[other]
  call check(all(few == 10000*other + 20 + v + 1), 'a vector and a scalar, with lower bounds')
  long = [4, -3]
  few(1:2) = grid(2, long)[other]
  call check(all(few(1:2) == 10000*other + 2 + 1 + 10*(long + 3)), 'a vector of kind 8')
  tiny = [1_1, 5_1]
  part(1:4, 1:2) = grid(0:9:3, tiny - 2_1)[other]
  do j = 1, 2
    call check(all(part(:, j) == [(10000*other + i + 1 + 10*(tiny(j) + 1), i=0, 9, 3)]), 'a triplet and a vector of kind 1')
  end do
  part = 0
  part(1:2, 1:3) = grid([5, 2], :-1)[other]
  call check(all(part(1:2, 1:3) == reshape([((10000*other + i + 1 + 10*j, i=5, 2, -3), j=0, 2)], [2, 3])), 'no beginning')
  part(1:2, 1:3) = grid([5, 2], 2:)[other]
  call check(all(part(1:2, 1:3) == reshape([((10000*other + i + 1 + 10*j, i=5, 2, -3), j=5, 7)], [2, 3])), 'no end')
  w8 = 5
  whole(1:w8 - 5) = line(3:2)[other]
  whole(4:3) = line(v(1:0))[other]
  call check(size(line(5:4)[other]) == 0, 'an empty section')
  call check(sum(line(1:4)[other]) == 4*1000*other + 10, 'a section in an expression')
  call check(maxval(line(:)[other]*2) == 2*(1000*other + 20), 'a section in an operation')
  mine = points(:)[other]
  call check(all(mine%number == [(other*10 + i, i=1, 6)]), 'derived types')
  few = points(2:6:2)[other]%number
  call check(all(few == other*10 + [2, 4, 6]), 'a component of a section')
  call check(all(points(3)[other]%x == [3, 6, 9]), 'an array component')
  call check(points(4)[other]%x(2) == 8, 'an element of a component')
  mine(1:3)%name = points(4:6)[other]%name
  call check(all(mine(1:3)%name == ['pDxy', 'pExy', 'pFxy']), 'texts of a section')
  texts = words(:)[other]
  call check(all(texts == [(char(64 + other)//char(64 + i)//'abc', i=1, 4)]), 'texts')
  sync all

  ! Sends.
  line(3)[other] = me
  line(5:7)[other] = [me, 2*me, 3*me]
  line(8:20:4)[other] = -me
  grid(:, 0)[other] = [(me + i, i=1, 10)]
  grid(1, :)[other] = [(100*me + i, i=1, 8)]
  v = [7, 2, 5]
  grid(v, 4)[other] = [70, 20, 50]
  grid(3:9:3, [2, 3])[other] = -5
  box(2, :, 1:5:2)[other] = reshape([(me*100 + i, i=1, 12)], [4, 3])
  box(3, 4:1:-1, 5)[other] = [1, 2, 3, 4]
  scalar[other] = scalar[other] + 1
  points(2:6:2)[other]%number = [me, me + 1, me + 2]
  points(1)[other]%x(2:3) = [me*1d0, me + 1d0]
  points(3)[other]%name = 'new'
  words(2:3)[other] = ['one  ', 'three']
  words(4)[other] = 'a longer text'
  sync all
  call check(line(3) == from .and. all(line(5:7) == [1, 2, 3]*from), 'line')
  call check(all(line(8:20:4) == -from) .and. line(9) == 1000*me + 9, 'a scalar to a stride')
  call check(all(grid(2:, 0) == [(from + i, i=3, 10)]), 'a column')
  call check(all(grid(1, :) == [(100*from + i, i=1, 8)]), 'a row')
  call check(all(grid([7, 2, 5], 4) == [70, 20, 50]), 'a vector there')
  call check(all(grid(3:9:3, 2:3) == -5) .and. grid(4, 2) == 10000*me + 55, 'a scalar to triplet and vector')
  call check(all(reshape(box(2, :, 1:5:2), [12]) == [(from*100 + i, i=1, 12)]), 'two strides there')
  call check(all(box(3, :, 5) == [4, 3, 2, 1]), 'a negative stride there')
  call check(scalar == 7*me + 1, 'a scalar there')
  call check(all(points(2:6:2)%number == from + [0, 1, 2]), 'components there')
  call check(all(points(1)%x == [1d0, from*1d0, from + 1d0]), 'elements of a component there')
  call check(points(3)%name == 'new ', 'a text there')
  call check(words(2) == 'one' .and. words(3) == 'three' .and. words(4) == 'a lon', 'texts there')
  sync all

  ! From an image to another one.
  line = [(1000*me + i, i=1, 20)]
  sync all
  line(1:10)[other] = line(11:20)[from]
  sync all
  call check(all(line(1:10) == [(1000*mod(me + 2*num_images() - 3, num_images()) + 1000 + i, i=11, 20)]), 'from image to image')
  sync all
  grid = me
  sync all
  grid(1, 1:3)[other] = line(20:16:-2)[other]
  sync all
  call check(all(grid(1, 1:3) == 1000*me + [20, 18, 16]), 'strides from image to image')
  sync all
  ! Within an image, with an overlap, by a coindex.
  line = [(i, i=1, 20)]
  line(2:20)[me] = line(1:19)
  call check(all(line == [1, (i, i=1, 19)]), 'an overlap upwards')
  line(1:19) = line(2:20)[me]
  call check(all(line(1:19) == [(i, i=1, 19)]), 'an overlap downwards')
  line(20:1:-1)[me] = line(1:20)[me]
  call check(all(line == [19, (i, i=19, 1, -1)]), 'a reversal')
  ! Puts and gets of one image keep their order.
  sync all
  do i = 1, 50
    scalar[other] = i
    call check(scalar[other] == i, 'a get behind a put')
    line(1:20:2)[other] = i
    line(1:20:3)[other] = -i
    few = line(1:3)[other]
    call check(all(few(1:1) == -i) .and. few(3) == i, 'puts in order')
  end do
  sync all
  ! Allocatable ones, with other bounds, and large ones.
  allocate (free(-1:300, 2:400)[*])
  free = me
  sync all
  free(:, 3)[other] = [(i, i=1, 302)]
  free(7, 4:)[other] = [(i, i=1, 397)]
  free(5:200, 200:300)[other] = -me
  sync all
  call check(all(free([0, 1, 2], 3) == [2, 3, 4]), 'an allocatable column')
  call check(all(free(7, 4:199) == [(i, i=1, 196)]), 'a long row')
  call check(all(free(5:200, 200:300) == -from), 'a large section')
  call check(all(free(4, 5:) == me) .and. all(free(201:, 301:) == me), 'nothing beside')
  call check(sum(free(5:200, 200:300)[other]) == -me*196*101, 'a large get')
  v = [300, -1, 12]
  few = free(v, 3)[other]
  call check(all(few == v + 2), 'a vector of an allocatable')
  deallocate (free)
  if (me == 1) print *, 'sections: done'
end program
