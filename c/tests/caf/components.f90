! Polymorphic components and pointers of coarrays, an allocatable polymorphic coarray's sections, co_broadcast of objects, and
! complex scalars.
module parts
  type b
    integer :: i = 0
  contains
    procedure :: hello
  end type
  type, extends(b) :: c
    real :: z(3) = 0
  end type
  type h
    class(b), allocatable :: p
    class(b), allocatable :: pa(:)
    type(c), pointer :: cp => null()
    real, pointer :: rp => null()
  end type
  type link
    integer :: number
    type(link), pointer :: next => null()
  end type
  type list
    type(link), pointer :: head => null()
  end type
  type plain
    integer :: number
    integer, allocatable :: list(:), one
  end type
  type rows
    integer :: number
    integer, allocatable :: list(:)
  end type
contains
  integer function hello(this)
   class(b), intent(in) :: this
   hello = this%i
  end function
end module
program o
  use parts
  implicit none
  type(h), save :: x[*]
  class(c), allocatable :: z(:)[:]
  integer :: me, n, k
  real, target :: tr
  type(plain) :: object
  me = this_image(); n = mod(me, num_images())+1
  allocate(c :: x%p)
  x%p%i = me
  allocate(x%cp)
  x%cp%i = 3*me
  x%cp%z = me*[1.,2.,3.]
  tr = me*1.25
  x%rp => tr
  sync all
  k = x[n]%p%i
  call check(.not. (k /= n), 'poly comp')
  call check(.not. (x[n]%cp%i /= 3*n), 'ptr comp')
  call check(.not. (any(x[n]%cp%z(1:3:2) /= n*[1.,3.])), 'ptr comp arr')
  call check(.not. (x[n]%rp /= n*1.25), 'real ptr')
  x[n]%rp = -1
  x[n]%p%i = 77
  sync all
  call check(.not. (tr /= -1), 'send ptr')
  call check(.not. (x%p%i /= 77), 'send poly')
  allocate(z(4)[*])
  z%i = [1,2,3,4]*me
  sync all
  call check(.not. (any(z(2:3)[n]%i /= n*[2,3])), 'z')
  call check(.not. (z(2)[n]%z(2) /= 0), 'zz')
  object%number = me
  allocate (object%list(3), object%one)
  object%list = me*[1, 2, 3]
  object%one = me
  call co_broadcast(object, num_images())
  call check(object%number == num_images() .and. all(object%list == num_images()*[1, 2, 3]) .and. object%one == num_images(), &
             'co_broadcast of an object')
  call empties(me)
  call complex_scalars(me, n)
  call linked(me, n)
  if (me == 1) print *, 'components: done'
contains
  ! Components that have no elements, or that no image has allocated, are no error (Fortran 2018, 16.9.46).
  subroutine empties(me)
    integer, intent(in) :: me
    type(plain), save :: never
    never%number = me
    call co_broadcast(never, num_images())
    call check(never%number == num_images() .and. .not. allocated(never%list) .and. .not. allocated(never%one), &
               'co_broadcast of what no image has allocated')
    call built_empty(me)
    call allocated_empty(me)
  end subroutine
  subroutine built_empty(me)
    integer, intent(in) :: me
    type(rows) :: built
    built = rows(me, [integer ::]) ! gfortran 12 gives the list no memory
    call co_broadcast(built, num_images())
    call check(built%number == num_images(), 'co_broadcast with an empty list')
  end subroutine
  subroutine allocated_empty(me)
    integer, intent(in) :: me
    type(rows) :: emptied
    emptied%number = me
    allocate (emptied%list(0))
    call co_broadcast(emptied, 1)
    call check(emptied%number == 1 .and. size(emptied%list) == 0, 'co_broadcast of no elements')
  end subroutine
  ! gfortran takes a copy of a complex scalar coarray, and assigns to the copy too; so each value is sent.
  subroutine complex_scalars(me, n)
    integer, intent(in) :: me, n
    complex(4), save :: short[*]
    complex(16), save :: longest[*]
    real(8) :: x
    short[me] = cmplx(me, -me)
    longest[me] = cmplx(me, -me)/4
    sync all
    x = short[n]
    call check(short[n] == cmplx(n, -n) .and. x == n, 'a get of a complex scalar')
    call check(4*longest[n] + short[n] == 2*cmplx(n, -n), 'complex scalars in an expression')
    sync all
    short[n] = longest[n]
    longest[n] = (1.5, 2.5)
    sync all
    call check(short == cmplx(me, -me)/4 .and. longest == (1.5, 2.5), 'a send to a complex scalar')
  end subroutine
  ! A list whose links lead to one another, on another image.
  subroutine linked(me, n)
    integer, intent(in) :: me, n
    type(list), save :: lists[*]
    type(link), target :: links(3)
    integer :: i, before
    do i = 1, 3
      links(i)%number = 10*me + i
      if (i > 1) links(i - 1)%next => links(i)
    end do
    lists%head => links(1)
    sync all
    call check(lists[n]%head%number == 10*n + 1, 'the first link')
    call check(lists[n]%head%next%number == 10*n + 2, 'the second link')
    call check(lists[n]%head%next%next%number == 10*n + 3, 'the third link')
    sync all
    lists[n]%head%next%next%number = me
    sync all
    before = mod(me + num_images() - 2, num_images()) + 1
    call check(links(3)%number == before .and. links(2)%number == 10*me + 2, 'a send to the third link')
    sync all
  end subroutine
  include 'checks.inc'
end program
