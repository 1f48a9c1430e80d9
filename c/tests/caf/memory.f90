! Coarrays of a module, large ones, empty ones, and one for which there is no memory.
module data
  implicit none
  integer, save :: shared(4)[*] = 5, first(2)[*] = 7
  real(8), allocatable :: big(:)[:]
  type thing
    integer :: v = 3
  end type
  type(thing), save :: t0[*]
  type holder
    integer, allocatable :: list(:)
  end type
  type(holder), save :: held[*]
contains
  subroutine bump(i)
    integer, intent(in) :: i
    critical
      shared(1)[1] = shared(1)[1] + i
    end critical
  end subroutine
end module

program memory
  use data
  use iso_fortran_env
  implicit none
  integer :: me, n, st, i
  character(80) :: em
  real(8), allocatable :: too_large(:)[:]
  integer, allocatable :: z(:)[:]
  me = this_image(); n = mod(me, num_images()) + 1
  ! Coarrays have their initial values before any image executes a statement.
  first(2)[n] = me
  held[n]%list = [me, 2, 3]
  sync all
  i = mod(me + num_images() - 2, num_images()) + 1
  call check(first(1) == 7 .and. first(2) == i, 'a put before anything else')
  call check(size(held%list) == 3 .and. held%list(1) == i, 'an allocation before anything else')
  call check(.not. (any(shared /= 5)), 'initial')
  call check(.not. (t0[n]%v /= 3), 'default init')
  sync all
  call bump(me)
  sync all
  if (me == 1) call check(shared(1) == 5 + num_images()*(num_images() + 1)/2, 'a coarray of a module')
  allocate(big(120000)[*])
  big = me
  sync all
  big(1:100000)[n] = [(i*1d0, i=1,100000)]
  sync all
  call check(.not. (any(big(1:100000) /= [(i*1d0, i=1,100000)])), 'big put')
  call check(.not. (sum(big(100001:)[n]) /= n*2d4), 'big get')
  call check(.not. (sum(big(1:120000:2)[n]) < 0), 'big strided get')
  sync all
  big(2:120000:2)[n] = 0
  sync all
  call check(.not. (any(big(2::2) /= 0)), 'big strided put')
  em = 'unset'
  allocate(too_large(10_8**12)[*], stat=st, errmsg=em)
  call check(.not. (st == 0), 'huge')
  call check(st == 5014 .and. em(1:8) == 'allocate', 'stat and errmsg of allocate')
  allocate(z(0)[*])
  sync all
  call check(.not. (size(z(:)[n]) /= 0), 'zero')
  deallocate(z)
  allocate(z(3)[*], source=[1,2,3])
  sync all
  call check(.not. (any(z(:)[n] /= [1,2,3])), 'source')
  call co_sum(st, result_image=99, stat=st)
  call check(st /= 0, 'a result image that there isn''t')
  if (me == 1) print *, 'memory: done'
contains
  include 'checks.inc'
end program
