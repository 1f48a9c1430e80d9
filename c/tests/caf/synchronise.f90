! sync all, sync images, sync memory: their orders, sets and errors; cobounds and image numbers.
program synchronise
  use iso_fortran_env
  implicit none
  integer, save :: value[*], places(3)[2, -1:*]
  integer, allocatable :: set(:), free[:]
  integer :: me, n, i, st
  character(30) :: text

  me = this_image()
  n = num_images()
  call check(me >= 1 .and. me <= n, 'this_image')
  call check(image_index(value, [n]) == n .and. image_index(value, [n + 1]) == 0, 'image_index')
  call check(all(lcobound(places) == [1, -1]), 'lcobound')
  call check(all(this_image(places) == [mod(me - 1, 2) + 1, (me - 1)/2 - 1]), 'cosubscripts')
  call check(image_index(places, this_image(places)) == me, 'image_index of cosubscripts')
  places = me
  sync all
  call check(places(2)[1, -1] == 1, 'two cosubscripts')
  if (n > 2) call check(places(3)[1, 0] == 3, 'two cosubscripts of the third image')
  st = 5
  text = 'as it was'
  sync all (stat=st, errmsg=text)
  call check(st == 0 .and. text == 'as it was', 'stat of sync all')
  ! A chain, several times.
  do i = 1, 20
    if (me > 1) then
      sync images (me - 1)
      value = value[me - 1] + 1
    else
      value = i
    end if
    if (me < n) sync images (me + 1)
    call check(value == i + me - 1, 'a chain')
    sync all
  end do
  ! One with all, all with one.
  do i = 1, 10
    if (me == 1) then
      value = 100*i
      sync images (*)
    else
      sync images (1, stat=st)
      call check(st == 0 .and. value[1] == 100*i, 'sync images with the first one')
    end if
    sync all
  end do
  set = [(i, i=1, n)]
  sync images (set, stat=st)
  call check(st == 0, 'a set of all')
  sync images (me)
  set = [integer ::]
  sync images (set)
  sync images (*)
  sync images ([1, 1], stat=st, errmsg=text)
  call check(st /= 0 .and. text(1:11) == 'sync images', 'a set with an image twice')
  sync images (n + 1, stat=st)
  call check(st /= 0, 'a set with an image that there isn''t')
  sync memory (stat=st)
  call check(st == 0, 'sync memory')
  sync all
  allocate (free[*], stat=st)
  call check(st == 0, 'stat of allocate')
  allocate (free[*], stat=st, errmsg=text)
  call check(st /= 0 .and. text(1:10) == 'Attempt to', 'a second allocate')
  free = me
  sync all
  call check(free[n] == n, 'an allocatable scalar')
  deallocate (free, stat=st)
  call check(st == 0 .and. .not. allocated(free), 'deallocate')
  deallocate (free, stat=st)
  call check(st /= 0, 'a second deallocate')
  do i = 1, 100
    allocate (free[*])
    free = i*me
    sync all
    call check(free[n] == i*n, 'allocations in a row')
    deallocate (free)
  end do
  call check(num_images(failed=.true.) == 0 .and. size(failed_images()) == 0 .and. size(stopped_images()) == 0, 'no image is gone')
  call check(image_status(n) == 0, 'image_status')
  deallocate (set)
  call locals(3)
  call locals(5)
  if (me == 1) print *, 'synchronise: done'
contains
  subroutine locals(size)
    integer, intent(in) :: size
    real, allocatable :: local(:)[:]
    allocate (local(size)[*])
    local = me + size
    sync all
    call check(all(local(:)[n] == n + size), 'a local coarray')
    call dummy(local, size)
  end subroutine
  subroutine dummy(array, size)
    integer, intent(in) :: size
    real :: array(2:size)[0:*]
    sync all
    array(3:size)[0] = -1
    sync all
    if (this_image() == 1) call check(all(array(3:) == -1) .and. array(2) == 1 + size, 'a dummy coarray')
  end subroutine
  include 'checks.inc'
end program
