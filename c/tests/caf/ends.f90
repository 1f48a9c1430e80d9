! How images end: the first argument says how; the second, where it is there, which image does it (else all).
program ends
  implicit none
  character(20) :: how, who
  integer :: image
  integer, allocatable :: array(:)
  integer, save :: value[*], values(3)[*] = 1
  real :: x
  logical :: quiet

  call get_command_argument(1, how)
  call get_command_argument(2, who)
  image = 0
  if (who /= '') read (who, *) image
  sync all
  print '(a, i0)', 'image ', this_image()
  quiet = .true.
  if (image == 0 .or. image == this_image()) then
    select case (how)
    case ('stop'); stop
    case ('stop 0'); stop 0
    case ('stop 7'); stop 7
    case ('stop text'); stop 'a text'
    case ('stop quiet'); stop 7, quiet=quiet
    case ('error stop'); error stop
    case ('error stop 0'); error stop 0
    case ('error stop 0 of one'); error stop 0
    case ('error stop 9'); error stop 9
    case ('error stop text'); error stop 'an error'
    case ('error stop quiet'); error stop 9, quiet=quiet
    case ('exit 5'); call exit(5)
    case ('twice'); allocate (array(2)); allocate (array(3))
    case ('no image'); value[num_images() + 1] = 3
    case ('lock twice'); call lock_twice()
    case ('outside'); value = sum(values([3, 1])[num_images()])
    case ('deferred'); call deferred()
    case ('outside component', 'outside objects'); call outside(how)
    case ('other bounds'); call other_bounds()
    case ('late'); call sleep(1); stop 3
    case ('abort'); call abort()
    case ('end')
    end select
  else if (how == 'error stop 9' .or. how == 'error stop 0') then
    do          ! it is ended while it waits
      sync images (this_image())
    end do
  else if (how == 'error stop text' .or. how == 'error stop 0 of one') then
    x = 0.5
    do          ! it is ended while it computes
      x = cos(x)
      if (x < 0) print *, x
    end do
  else if (how == 'stop 7') then
    sync all    ! an image that stopped doesn't come
  end if
contains
  ! The images ask for different lengths. A put by the bounds of one would reach beyond the other's array.
  subroutine other_bounds()
    integer, allocatable :: x(:)[:], behind(:)[:]
    integer :: status
    allocate (x(merge(10, 1000, this_image() == 1))[*], stat=status)
    if (status /= 1) stop 7
    allocate (behind(100)[*])
    behind = 1
    sync all
    allocate (x(merge(10, 1000, this_image() == 1))[*])
    if (this_image() == 2) x(11:900)[1] = -5
    sync all
    if (any(behind /= 1)) stop 8
  end subroutine
  subroutine lock_twice()
    use iso_fortran_env, only: lock_type
    type(lock_type), save :: guard[*]
    lock (guard[1])
    lock (guard[1])
  end subroutine
  subroutine outside(how)
    character(*), intent(in) :: how
    type listed
      real, allocatable :: list(:)
    end type
    type(listed), save :: some(3)[*]
    integer :: last
    last = 3
    if (how == 'outside objects') last = 5
    some(3)%list = [1., 2., 3.]
    x = some(last)[this_image()]%list(last + 1)
    print *, x
  end subroutine
  subroutine deferred()
    type named
      character(:), allocatable :: name
    end type
    type(named), save :: one[*]
    character(4) :: name
    one%name = 'name'
    name = one[this_image()]%name
    print *, name
  end subroutine
end program
