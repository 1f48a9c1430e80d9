! Teams, as far as gfortran 12 has them: form, change, end, sync, team_number, and coarrays within.
program teams
  use iso_fortran_env, only: team_type
  implicit none
  type(team_type) :: half, quarter
  integer, save :: value[*]
  integer, allocatable :: inner(:)[:]
  integer :: me, n, mine, total, i, index, count

  me = this_image()
  n = num_images()
  mine = mod(me - 1, 2) + 1
  value = me
  call check(team_number() == -1, 'the number of the initial team')
  form team (mine, half)
  call check(team_number(half) == mine, 'the number of a team')
  sync all
  index = (me - 1)/2 + 1
  count = (n + 2 - mine)/2
  change team (half)
    call check(this_image() == index .and. num_images() == count, 'this_image and num_images')
    call check(team_number() == mine, 'team_number')
    call check(value[count] == 2*count - 2 + mine, 'a coarray of the parent')
    total = 1
    call co_sum(total)
    call check(total == count, 'co_sum')
    i = me
    call co_broadcast(i, 1)
    call check(i == mine, 'co_broadcast')
    allocate (inner(mine)[*])
    inner = me
    sync all
    call check(inner(mine)[1] == mine, 'a coarray of the team')
    call check(inner(mine)[count] == 2*count - 2 + mine, 'its last image')
    value[count] = -mine
    sync all
    if (index == count) call check(value == -mine, 'a send')
    if (index == 1) then
      sync images (*)
    else
      sync images (1)
    end if
    form team (index, quarter)
    change team (quarter)
      call check(this_image() == 1 .and. num_images() == 1, 'a team of one')
      call check(num_images(1) == count .and. this_image(distance=1) == index, 'the parent of it')
      sync all
    end team
    deallocate (inner)
    sync team (half)
  end team
  sync team (half)
  call check(this_image() == me .and. num_images() == n, 'behind the team')
  call check(team_number() == -1, 'the number behind the team')
  form team (1, half)
  change team (half)
    call check(num_images() == n .and. this_image() == me, 'a team of all')
  end team
  sync all
  if (me == 1) print *, 'teams: done'
contains
  include 'checks.inc'
end program
