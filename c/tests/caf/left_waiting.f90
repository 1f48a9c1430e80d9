! The last image stops, or fails, while the others wait for it in a short collective: left_waiting WHICH [fails].
program left_waiting
  use iso_fortran_env
  implicit none
  integer :: me, n, st, number
  integer(8) :: word, begun, now, rate
  real :: part(4)
  character(9) :: which, how

  me = this_image()
  n = num_images()
  call get_command_argument(1, which)
  call get_command_argument(2, how)
  ! One that all end comes before.
  part = me
  call co_sum(part)
  call check(all(part == n*(n + 1)/2), 'co_sum of all')
  if (me == n) then
    call system_clock(begun, rate)
    do ! the others are in it then
      call system_clock(now)
      if (now - begun > rate/4) exit
    end do
    if (how == 'fails') fail image
    stop
  end if
  part = me
  word = me
  number = 0
  select case (which)
  case ('sum')
    call co_sum(part, stat=st)
    call check(all(part == me), 'the part is as it was')
  case ('words')
    call co_max(word, stat=st)
    call check(word == me, 'the word is as it was')
  case default
    call co_broadcast(part, n, stat=st)
  end select
  call check(st == merge(stat_failed_image, stat_stopped_image, how == 'fails'), 'the stat')
  ! And so do all that follow.
  call co_min(number, stat=st)
  call check(st == merge(stat_failed_image, stat_stopped_image, how == 'fails'), 'the stat of the next one')
  if (me == 1) print *, 'left_waiting: done'
contains
  include 'checks.inc'
end program
