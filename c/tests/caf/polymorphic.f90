! Polymorphic coarrays and components, type extension, coarray components, move_alloc, and dummy arguments.
module shapes
  implicit none
  type shape
    integer :: sides = 0
  contains
    procedure :: area => shape_area
  end type
  type, extends(shape) :: square
    real :: width = 1
    real, allocatable :: marks(:)
  contains
    procedure :: area => square_area
  end type
  type holder
    class(shape), allocatable :: item
    real, allocatable :: numbers(:)[:]
  end type
  type keeper
    class(shape), allocatable :: item
    integer :: number
  end type
contains
  subroutine widen(item, me)
    class(shape), intent(inout) :: item
    integer, intent(in) :: me
    select type (item)
    type is (square)
      item%width = me
    end select
  end subroutine
  real function shape_area(this)
    class(shape), intent(in) :: this
    shape_area = this%sides
  end function
  real function square_area(this)
    class(square), intent(in) :: this
    square_area = this%width**2
  end function
end module

program polymorphic
  use shapes
  implicit none
  class(shape), allocatable :: one[:], many(:)[:]
  type(square), save :: squares(3)[*]
  type(holder) :: held
  integer, allocatable :: from(:)[:], to(:)[:]
  integer :: me, n, i

  me = this_image()
  n = mod(me, num_images()) + 1
  allocate (square :: one[*])
  one%sides = 4*me
  call widen(one, me)
  sync all
  call check(one[n]%sides == 4*n, 'a component of a polymorphic coarray')
  one[n]%sides = 7*n
  sync all
  call check(one%sides == 7*me .and. one%area() == me**2, 'what was sent, and the type')
  deallocate (one)
  allocate (square :: many(4)[*])
  do i = 1, 4
    many(i)%sides = 10*me + i
  end do
  sync all
  call check(many(3)[n]%sides == 10*n + 3, 'an element of a polymorphic array')
  many(2)[n]%sides = -me
  sync all
  call check(many(2)%sides == -(mod(me + num_images() - 2, num_images()) + 1), 'a send to an element')
  deallocate (many)
  squares%sides = me
  squares%width = [me*1., me*2., me*3.]
  allocate (squares(2)%marks(3))
  squares(2)%marks = me*[0.5, 1.5, 2.5]
  sync all
  call check(squares(3)[n]%width == 3*n .and. squares(2)[n]%sides == n, 'an extended type')
  call check(squares(2)[n]%shape%sides == n, 'its parent')
  call check(all(squares(2)[n]%marks == n*[0.5, 1.5, 2.5]), 'its allocatable component')
  sync all
  squares(2)[n]%marks(2) = -1
  squares(1)[n]%width = 5
  sync all
  call check(squares(2)%marks(2) == -1 .and. squares(1)%width == 5, 'sends to an extended type')
  ! A coarray that is a component.
  allocate (held%numbers(5)[*])
  held%numbers = [(me*i, i=1, 5)]
  sync all
  call check(all(held%numbers(2:4)[n] == n*[2, 3, 4]), 'a coarray component')
  held%numbers(1)[n] = -me
  sync all
  call check(held%numbers(1) == -(mod(me + num_images() - 2, num_images()) + 1), 'a send to a coarray component')
  ! move_alloc, and dummy arguments.
  allocate (from(0:3)[*])
  from = me*[1, 2, 3, 4]
  sync all
  call move_alloc(from, to)
  call check(.not. allocated(from), 'move_alloc')
  sync all
  call check(to(2)[n] == 3*n .and. all(to(1:3:2)[n] == n*[2, 4]), 'what moved')
  call dummy(to)
  call assumed(to(1:3))
  sync all
  deallocate (to)
  if (me == 1) print *, 'polymorphic: done'
contains
  subroutine dummy(array)
    integer, allocatable :: array(:)[:]
    integer, allocatable :: taken(:)
    taken = array(:)[n]
    call check(all(taken == n*[1, 2, 3, 4]), 'an allocatable dummy')
  end subroutine
  subroutine assumed(array)
    integer :: array(:)[*]
    call check(array(2)[n] == 3*n .and. all(array(:)[n] == n*[2, 3, 4]), 'an assumed-shape dummy')
  end subroutine
  include 'checks.inc'
end program
