! The last image stops. The others see it, and still get what it has.
program stopped
  use iso_fortran_env
  implicit none
  integer, save :: value(8)[*]
  type(event_type), save :: event_var[*]
  integer, allocatable :: images(:)
  type(lock_type), save :: guard[*]
  real(8), allocatable :: long(:)
  integer, allocatable :: made(:)[:]
  integer :: me, n, st, total, i, before, others(64)
  logical :: got
  character(60) :: text

  me = this_image()
  n = num_images()
  value = 3*me
  sync all
  if (n == 1) stop
  if (me == n) then
    lock (guard[1])
    stop
  end if
  do while (image_status(n) /= stat_stopped_image)
    sync memory
  end do
  images = stopped_images()
  call check(size(images) == 1 .and. images(1) == n, 'stopped_images')
  call check(size(failed_images()) == 0 .and. num_images(failed=.true.) == 0, 'failed_images')
  sync all (stat=st, errmsg=text)
  call check(st == stat_stopped_image .and. text(1:8) == 'sync all', 'sync all')
  sync images (n, stat=st)
  call check(st == stat_stopped_image, 'sync images')
  sync images (*, stat=st)
  call check(st == stat_stopped_image, 'sync images of all')
  total = me
  call co_sum(total, stat=st)
  call check(st == stat_stopped_image, 'co_sum')
  call check(all(value(n:)[n] == 3*n), 'what it has')
  value(me)[n] = -me
  call check(value(me)[n] == -me, 'what was sent to it')
  event post (event_var[n], stat=st)
  call check(st == 0, 'a post to it')
  if (n == 2) then
    event wait (event_var, stat=st)
    call check(st == stat_stopped_image, 'a wait that nobody ends')
  end if
  ! A lock that it had.
  lock (guard[1], stat=st, errmsg=text)
  call check(st == stat_stopped_image .and. text(1:4) == 'lock', 'a lock that it had')
  lock (guard[1], acquired_lock=got, stat=st)
  call check(.not. got .and. st == 0, 'a try for it')
  ! Collectives that fail leave nothing behind.
  allocate (long(50000))
  long = me
  before = resident()
  do i = 1, 500
    call co_sum(long, stat=st)
    call check(st == stat_stopped_image, 'a long co_sum')
  end do
  call check(resident() - before < 50000, 'memory of collectives that failed')
  deallocate (long)
  ! An allocate, whose sync all has no stat=.
  allocate (made(3)[*], stat=st, errmsg=text)
  call check(st == stat_stopped_image .and. text(1:8) == 'allocate' .and. .not. allocated(made), 'an allocate')
  others = [(i, i=1, 64)]
  sync images (others(:n - 1)) ! the next one that stops would be told of too
  if (me == 1) print *, 'stopped: done'
contains
  ! How many KiB of memory this process has.
  integer function resident()
    character(80) :: line
    integer :: unit, end
    resident = -1
    open (newunit=unit, file='/proc/self/status', action='read')
    do
      read (unit, '(a)', iostat=end) line
      if (end /= 0) exit
      if (line(1:6) == 'VmRSS:') read (line(7:), *) resident
    end do
    close (unit)
  end function
  include 'checks.inc'
end program
