! References through components that are allocated apart, of scalars, arrays and texts; nested; absent ones.
module types
  implicit none
  type inner
    integer :: number = 0
    real, allocatable :: values(:)
    integer :: fixed(2, 3) = 0
  end type
  type outer
    integer :: number = 1
    real, allocatable :: line(:)
    integer, allocatable :: grid(:, :)
    integer, allocatable :: one
    real(8), pointer :: there(:) => null()
    type(inner), allocatable :: parts(:)
    type(inner) :: part
    type(inner) :: pair(2)
    character(6) :: name = 'nobody'
    character(6), allocatable :: names(:)
    complex, allocatable :: waves(:)
  end type
  type simple
    integer :: number = 1
    real, allocatable :: line(:)
    integer, allocatable :: one
  end type
contains
  subroutine check(is_right, what)
    logical, intent(in) :: is_right
    character(*), intent(in) :: what
    if (.not. is_right) then
      print *, 'image', this_image(), ': ', what
      error stop 1
    end if
  end subroutine
end module

program references
  use types
  implicit none
  type(outer), save :: object[*]
  type(simple), allocatable :: free(:)[:]
  integer, allocatable :: array(:, :)[:]
  integer :: me, n, from, i, j, few(3)
  real :: numbers(4)
  real(8) :: wide(4)
  real, allocatable :: taken(:)
  integer, allocatable :: square(:, :), row(:)
  character(6) :: texts(2)
  real(8), target :: target_array(20)

  me = this_image()
  n = mod(me, num_images()) + 1
  from = mod(me + num_images() - 2, num_images()) + 1
  call check(.not. allocated(object[n]%line), 'nothing is allocated')
  sync all
  allocate (object%line(me + 3), object%grid(0:3, -1:2), object%one, object%parts(2:4), object%names(2), object%waves(4))
  object%line = [(10*me + i, i=1, me + 3)]
  object%grid = reshape([(100*me + i, i=1, 16)], [4, 4])
  object%one = 5*me
  do i = 2, 4
    allocate (object%parts(i)%values(i))
    object%parts(i)%number = 7*i + me
    object%parts(i)%values = [(me*100 + 10*i + j, j=1, i)]
    object%parts(i)%fixed = reshape([(me*100 + 10*i + j, j=1, 6)], [2, 3])
  end do
  object%part%fixed = reshape([(me + j, j=1, 6)], [2, 3])
  allocate (object%part%values(3), object%pair(2)%values(2))
  object%part%values = me*[1, 2, 3]
  object%pair(2)%values = me*[5, 6]
  object%pair(1)%fixed = me
  object%names = ['first ', 'second']
  object%waves = [(cmplx(i, -i), i=1, 4)]
  target_array = [(i*0.5d0 + me, i=1, 20)]
  object%there => target_array(2:20:3)
  sync all

  ! Gets.
  call check(object[n]%number == 1, 'a component beside allocatable ones')
  call check(object[n]%name == 'nobody', 'a text')
  call check(object[n]%one == 5*n, 'a scalar component')
  call check(allocated(object[n]%line) .and. allocated(object[n]%one), 'they are allocated')
  numbers = object[n]%line(1:4)
  call check(all(numbers == 10*n + [1, 2, 3, 4]), 'a section')
  wide(1:2) = object[n]%line(4:2:-2)
  call check(all(wide(1:2) == 10*n + [4, 2]), 'a section, converted')
  taken = object[n]%line
  call check(size(taken) == n + 3 .and. all(taken == [(10*n + i, i=1, n + 3)]), 'all of it, allocated by the assignment')
  taken = object[n]%line(2:)
  call check(size(taken) == n + 2 .and. taken(1) == 10*n + 2, 'an open end')
  taken = object[n]%line(:3)
  call check(size(taken) == 3 .and. taken(3) == 10*n + 3, 'an open start')
  taken = object[n]%line([3, 1])
  call check(all(taken == 10*n + [3, 1]), 'a vector')
  square = object[n]%grid
  call check(all(square == reshape([(100*n + i, i=1, 16)], [4, 4])), 'two dimensions')
  row = object[n]%grid(2, :)
  call check(all(row == 100*n + [3, 7, 11, 15]), 'a row')
  row = object[n]%grid(3:0:-3, 0)
  call check(all(row == 100*n + [8, 5]), 'a column backwards')
  square = object[n]%grid(1:3:2, -1:2:3)
  call check(all(square == reshape(100*n + [2, 4, 14, 16], [2, 2])), 'strides')
  call check(object[n]%grid(1, 2) == 100*n + 14, 'an element')
  call check(object[n]%parts(3)%number == 21 + n, 'a component of a component')
  call check(object[n]%parts(4)%values(2) == 100*n + 42, 'two levels')
  taken = object[n]%parts(4)%values
  call check(all(taken == [(100*n + 40 + j, j=1, 4)]), 'all of the second level')
  call check(object[n]%parts(2)%fixed(2, 3) == 100*n + 26, 'an element of constant bounds')
  few = object[n]%parts(2)%fixed(1, :)
  call check(all(few == 100*n + [21, 23, 25]), 'a row of constant bounds')
  square = object[n]%part%fixed(2:1:-1, 1:3:2)
  call check(all(square == reshape(n + [2, 1, 6, 5], [2, 2])), 'strides of constant bounds')
  few = object[n]%parts(:)%number
  call check(all(few == [14, 21, 28] + n), 'a component of each')
  few = object[n]%parts(:)%fixed(2, 2)
  call check(all(few == 100*n + [24, 34, 44]), 'an element of each')
  taken = object[n]%part%values
  call check(all(taken == n*[1, 2, 3]), 'a component in a part')
  taken = object[n]%pair(2)%values
  call check(all(taken == n*[5, 6]), 'a component in an array of parts')
  call check(.not. allocated(object[n]%pair(1)%values), 'one that is absent beside it')
  texts = object[n]%names
  call check(all(texts == ['first ', 'second']), 'texts')
  call check(object[n]%names(2) == 'second', 'a text of them')
  taken = object[n]%waves
  call check(all(taken == [1, 2, 3, 4]), 'complex to real')
  wide(1:3) = object[n]%there(2:6:2)
  call check(all(wide(1:3) == [2.5d0, 5.5d0, 8.5d0] + n), 'a pointer to a section')
  taken = object[n]%line(::-1)
  call check(size(taken) == 0, 'nothing from the lower to the upper bound downwards')
  taken = object[n]%line(3::-1)
  call check(size(taken) == 0, 'nothing from 3 to the upper bound downwards')
  taken = object[n]%line(:1:-1)
  call check(size(taken) == 1 .and. taken(1) == 10*n + 1, 'one from the lower bound downwards')
  taken = object[n]%line(3:1:-1)
  call check(all(taken == 10*n + [3, 2, 1]), 'three downwards')
  sync all

  ! Sends.
  object[n]%number = 40 + me
  object[n]%one = 50 + me
  object[n]%line(2:3) = [me*1.5, me*2.5]
  object[n]%line(4) = -me
  object[n]%grid(2, :) = [(me*10 + i, i=1, 4)]
  object[n]%grid(0:3:3, -1) = -9
  object[n]%parts(3)%values(1:3:2) = [me + 0.25d0, me + 0.75d0]
  object[n]%parts(2:4:2)%number = [60 + me, 70 + me]
  object[n]%parts(4)%fixed(:, 2) = me
  object[n]%part%values = 3*me
  object[n]%name = 'somebody'
  object[n]%names(1) = 'x'
  object[n]%there(3) = me
  sync all
  call check(object%number == 40 + from .and. object%one == 50 + from, 'scalars sent')
  call check(all(object%line(1:4) == [10.*me + 1, from*1.5, from*2.5, -1.*from]), 'a section sent')
  call check(all(object%grid(2, :) == [(from*10 + i, i=1, 4)]) .and. object%grid(1, 0) == 100*me + 6, 'a row sent')
  call check(all(object%grid(0:3, -1) == [-9, 100*me + 2, from*10 + 1, -9]), 'a scalar to a stride sent')
  call check(all(object%parts(3)%values == [from + 0.25, me*100 + 32., from + 0.75]), 'the second level sent')
  call check(all(object%parts%number == [60 + from, 21 + me, 70 + from]), 'a component of each sent')
  call check(all(object%parts(4)%fixed(:, 2) == from) .and. object%parts(4)%fixed(1, 1) == 100*me + 41, 'constant bounds sent')
  call check(all(object%part%values == 3*from), 'a scalar to all sent')
  call check(object%name == 'somebo' .and. object%names(1) == 'x', 'texts sent')
  call check(target_array(8) == from, 'a pointer sent')
  sync all
  ! From image to image.
  object[n]%line(1:2) = object[from]%line(2:3)
  object[n]%parts(2)%values(1:2) = object[n]%grid(3, 1:2)
  sync all
  call check(object%parts(2)%values(1) == 100*me + 12, 'from image to image')
  sync all

  ! An allocatable coarray of such objects, and the allocation of a component by an assignment.
  allocate (free(3)[*])
  free(2)%number = me
  sync all
  call check(free(2)[n]%number == n .and. .not. allocated(free(2)[n]%line), 'an allocatable coarray')
  free(3)%line = [1., 2., 3.]*me
  free(1)%one = me
  sync all
  taken = free(3)[n]%line
  call check(all(taken == [1., 2., 3.]*n), 'a component that an assignment allocated')
  call check(free(1)[n]%one == n, 'a scalar that an assignment allocated')
  if (me == 1) then          ! an assignment here is no matter of the others
    free(2)%line = [4., 5.]
    free(2)%line = [4., 5., 6.]
    free(1)%line = free(2)%line
    deallocate (free(2)%line)
  end if
  sync all
  taken = free(1)[1]%line
  call check(all(taken == [4., 5., 6.]), 'a copy of a component')
  call check(.not. allocated(free(2)[1]%line), 'a component that was deallocated')
  sync all
  deallocate (free)
  ! Coarrays with their own bounds.
  allocate (array(-2:2, 0:3)[*])
  array = reshape([(me*100 + i, i=1, 20)], [5, 4])
  sync all
  square = array(:, 1:2)[n]
  call check(all(square == reshape([(n*100 + i, i=6, 15)], [5, 2])), 'a coarray, allocated by the assignment')
  row = array(-2, :)[n]
  call check(all(row == n*100 + [1, 6, 11, 16]), 'a row of a coarray')
  square = array(1:, :1)[n]
  call check(all(square == reshape(n*100 + [4, 5, 9, 10], [2, 2])), 'open ends of a coarray')
  call made_there()
  if (me == 1) print *, 'references: done'
contains
  ! Assignments that allocate components of another image, anew where the shape is another one.
  subroutine made_there()
    type(simple), allocatable :: some(:)[:]
    integer :: k
    allocate (some(2)[*])
    do k = 1, 20
      some(2)[n]%line = [(real(i + me), i=1, k)]
      some(2)[n]%one = k
      sync all
      call check(size(some(2)%line) == k .and. some(2)%one == k, 'the shape of what another image allocated')
      call check(all(some(2)%line == [(real(i + from), i=1, k)]), 'what it assigned')
      if (mod(k, 7) == 0) deallocate (some(2)%line)
      sync all
    end do
    deallocate (some)
  end subroutine
end program
