! More teams than a message tells of. The last image stops behind a broadcast that it began, so that isn't said to lack it.
program many_teams
  use iso_fortran_env
  implicit none
  type(team_type) :: team
  integer :: me, n, i, st, value, others(64)

  me = this_image()
  n = num_images()
  do i = 1, 600
    form team (1, team)
    sync team (team)
  end do
  value = me
  if (me == n) then
    call co_broadcast(value, n)
    stop
  end if
  do while (image_status(n) /= stat_stopped_image)
    sync memory
  end do
  call co_broadcast(value, n, stat=st)
  call check(st == 0 .and. value == n, 'a broadcast of an image that stopped since')
  call co_broadcast(value, n, stat=st)
  call check(st == stat_stopped_image, 'the next one')
  others = [(i, i=1, 64)]
  sync images (others(:n - 1))
  if (me == 1) print *, 'many_teams: done'
contains
  include 'checks.inc'
end program
