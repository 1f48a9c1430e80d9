! Collectives whose lengths differ: the first argument says which one, the second and the third how many elements image 1 and the
! others have. All end with an error of Fortran, however many images there are, and whichever way the numbers go.
program lengths
  use iso_fortran_env, only: int64
  implicit none
  character(20) :: which, text
  integer :: first, others, n
  real(8), allocatable :: a(:)
  integer(int64), allocatable :: i(:)

  call get_command_argument(1, which)
  first = number(2)
  others = number(3)
  n = merge(first, others, this_image() == 1)
  allocate (a(n), source=1d0)
  allocate (i(n), source=1_int64)
  sync all
  select case (which)
  case ('sum'); call co_sum(a)
  case ('words'); call co_sum(i)
  case ('to one'); call co_max(a, result_image=num_images())
  case ('broadcast'); call co_broadcast(a, 1)
  case ('types'); call types() ! as many bytes, in elements of other lengths
  end select
  if (which /= 'broadcast' .and. num_images() > 1) call co_sum(a) ! whoever went on waits here
  sync all
  deallocate (a, i)
  if (this_image() == 1) print '(a)', 'lengths: done'
contains
  subroutine types()
    real(8) :: wide(4097)
    integer :: narrow(8194)
    wide = 1
    narrow = 1
    if (this_image() == 1) then
      call co_sum(wide)
    else
      call co_sum(narrow)
    end if
  end subroutine

  integer function number(place)
    integer, intent(in) :: place
    call get_command_argument(place, text)
    number = 3
    if (text /= '') read (text, *) number
  end function
end program
