! Locks, critical sections, events and atomics, with their errors.
program locks
  use iso_fortran_env
  implicit none
  type(lock_type), save :: lock_var[*], several(3)[*]
  type(lock_type), allocatable :: free(:)[:]
  type(event_type), save :: event_var[*], events(2:4)[*]
  type(event_type), allocatable :: made(:, :)[:]
  integer, save :: counter[*], inside[*]
  integer(atomic_int_kind), save :: number[*], numbers(4)[*]
  logical(atomic_logical_kind), save :: flag[*]
  integer(atomic_int_kind) :: old
  logical(atomic_logical_kind) :: was
  logical :: got
  character(20) :: text
  integer :: me, n, next, i, st

  me = this_image()
  n = num_images()
  next = mod(me, n) + 1
  sync all
  do i = 1, 20
    lock (lock_var[1])
    counter[1] = counter[1] + 1
    unlock (lock_var[1])
    critical
      inside[n] = inside[n] + 1
    end critical
  end do
  sync all
  if (me == 1) call check(counter == 20*n, 'a lock')
  call check(inside[n] == 20*n, 'a critical section')
  lock (several(2)[next], stat=st)
  call check(st == 0, 'stat of a lock')
  lock (several(2)[next], stat=st, errmsg=text)
  call check(st == stat_locked .and. text(1:4) == 'lock', 'a lock that this image has')
  lock (several(3)[next], acquired_lock=got)
  call check(got, 'a lock is acquired')
  sync all
  if (n > 1) then
    lock (several(3), acquired_lock=got, stat=st)
    call check(.not. got .and. st == 0, 'a lock that another image has')
    text = 'as it was'
    unlock (several(3), stat=st, errmsg=text)
    call check(st == stat_locked_other_image .and. text(1:6) == 'unlock', 'the unlock of another image''s lock')
  end if
  sync all
  unlock (several(2)[next])
  unlock (several(3)[next], stat=st)
  call check(st == 0, 'unlock')
  text = 'as it was'
  unlock (several(1)[me], stat=st, errmsg=text)
  call check(st == stat_unlocked .and. text(1:6) == 'unlock', 'the unlock of a free lock')
  allocate (free(2)[*])
  lock (free(2)[1])
  counter[1] = counter[1] + 1
  unlock (free(2)[1])
  deallocate (free)
  sync all
  if (me == 1) call check(counter == 21*n, 'an allocatable lock')

  ! Events.
  event post (event_var[next])
  event wait (event_var)
  event post (events(3)[next])
  event post (events(3)[next], stat=st)
  call check(st == 0, 'stat of a post')
  event post (events(4)[1])
  event wait (events(3), until_count=2, stat=st)
  call check(st == 0, 'stat of a wait')
  call event_query(events(3), i, stat=st)
  call check(i == 0 .and. st == 0, 'an event that was waited for')
  if (me == 1) event wait (events(4), until_count=n)
  sync all
  event post (events(2)[next])
  event post (events(2)[next])
  event post (events(2)[next])
  sync all
  call event_query(events(2), i)
  call check(i == 3, 'event_query')
  event wait (events(2))
  call event_query(events(2), i)
  call check(i == 2, 'event_query behind a wait')
  allocate (made(2, 3)[*])
  event post (made(2, 3)[next])
  event wait (made(2, 3))
  call event_query(made(1, 3), i)
  call check(i == 0, 'an allocatable event')
  deallocate (made)

  ! Atomics.
  call atomic_define(number, 0)
  call atomic_define(numbers(3)[next], 10*me)
  call atomic_define(flag[next], .true._atomic_logical_kind)
  sync all
  call atomic_ref(old, numbers(3))
  call check(old == 10*mod(me + n - 2, n) + 10, 'atomic_define')
  call atomic_ref(was, flag)
  call check(was, 'a logical')
  do i = 1, 50
    call atomic_add(number[1], 2)
    call atomic_fetch_add(number[1], -1, old)
  end do
  sync all
  call atomic_ref(old, number[1], stat=st)
  call check(old == 50*n .and. st == 0, 'atomic_add')
  sync all
  if (me == 1) call atomic_define(number, 12)
  sync all
  if (me == n) then
    call atomic_and(number[1], 10)
    call atomic_fetch_or(number[1], 3, old)
    call check(old == 8, 'atomic_and')
    call atomic_xor(number[1], 1)
    call atomic_fetch_xor(number[1], 4, old)
    call check(old == 10, 'atomic_or and atomic_xor')
    call atomic_fetch_and(number[1], 6, old)
    call check(old == 14, 'atomic_fetch_xor')
    call atomic_cas(number[1], old, 5, 77)
    call check(old == 6, 'atomic_cas that fails')
    call atomic_cas(number[1], old, 6, 78)
    call check(old == 6, 'atomic_cas')
    call atomic_ref(old, number[1])
    call check(old == 78, 'what atomic_cas set')
    call atomic_cas(flag[1], was, .true._atomic_logical_kind, .false._atomic_logical_kind)
  end if
  sync all
  call check(flag .eqv. me > 1, 'atomic_cas of a logical')
  ! A spin on an atomic variable.
  if (me == 1) then
    call atomic_define(number[n], 99)
  else if (me == n) then
    do
      call atomic_ref(old, number)
      if (old == 99) exit
    end do
  end if
  sync all
  if (me == 1) print *, 'locks: done'
contains
  include 'checks.inc'
end program
