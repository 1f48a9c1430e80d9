! The last image fails. The others go on: what is told of it, and what refers to it.
program failed
  use iso_fortran_env
  implicit none
  integer, save :: value[*]
  type(lock_type), save :: guard[*]
  type(event_type), save :: event_var[*]
  integer(atomic_int_kind), save :: number[*]
  integer, allocatable :: images(:)
  integer(8), allocatable :: long_images(:)
  integer :: me, n, st, got, total
  character(60) :: text

  me = this_image()
  n = num_images()
  value = me
  sync all
  if (n == 1) stop
  if (me == n) then
    if (n > 2) lock (guard[1])
    fail image
    print *, 'an image that failed goes on'
  end if
  do while (image_status(n) /= stat_failed_image)
    sync memory
  end do
  call check(num_images(failed=.true.) == 1 .and. num_images(failed=.false.) == n - 1, 'num_images')
  images = failed_images()
  call check(size(images) == 1 .and. images(1) == n, 'failed_images')
  long_images = failed_images(kind=8)
  call check(size(long_images) == 1 .and. long_images(1) == n, 'failed_images of kind 8')
  call check(size(stopped_images()) == 0, 'stopped_images')
  call check(image_status(me) == 0, 'image_status of this one')
  value = 5
  text = 'as it was'
  sync all (stat=st, errmsg=text)
  call check(st == stat_failed_image .and. text(1:8) == 'sync all', 'sync all')
  ! It synchronises those that didn't fail.
  value = 10*me
  sync all (stat=st)
  call check(st == stat_failed_image .and. value[1] == 10, 'sync all of the others')
  if (n > 2) call check(value[n - 1] == 10*(n - 1), 'the value of another one')
  got = value[n, stat=st]
  call check(st == stat_failed_image, 'a get')
  sync images (n, stat=st)
  call check(st == stat_failed_image, 'sync images')
  text = 'as it was'
  event post (event_var[n], stat=st, errmsg=text)
  call check(st == stat_failed_image .and. text(1:9) == 'a coarray', 'a post')
  call atomic_define(number[n], 4, stat=st)
  call check(st == stat_failed_image, 'an atomic')
  text = 'as it was'
  lock (guard[n], stat=st, errmsg=text)
  call check(st == stat_failed_image .and. text(1:9) == 'a coarray', 'a lock of it')
  total = 1
  call co_sum(total, stat=st, errmsg=text)
  call check(st == stat_failed_image, 'co_sum')
  if (me == 1 .and. n > 2) then
    lock (guard[1], stat=st)
    call check(st == 6002, 'a lock that it had')
    unlock (guard[1])
  end if
  if (me == 1) print *, 'failed: done'
contains
  include 'checks.inc'
end program
