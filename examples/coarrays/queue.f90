! A queue of work: the first image fills it, and tells all by events. Each image takes numbers from it under a lock.
program queue
  use iso_fortran_env, only: lock_type, event_type
  implicit none
  integer, parameter :: works = 40
  type(lock_type), save :: guard[*]
  type(event_type), save :: filled[*], emptied[*]
  integer, save :: work(works)[*], taken[*]
  integer :: i, place, value, squares

  sync all
  if (this_image() == 1) then
    work = [(i, i=1, works)]
    taken = 0
    do i = 1, num_images()
      event post (filled[i])
    end do
  end if
  event wait (filled)
  squares = 0
  do
    lock (guard[1])
    place = taken[1] + 1
    if (place <= works) taken[1] = place
    unlock (guard[1])
    if (place > works) exit
    value = work(place)[1]
    squares = squares + value**2
  end do
  event post (emptied[1])
  if (this_image() == 1) event wait (emptied, until_count=num_images())
  call co_sum(squares, result_image=1)
  if (this_image() == 1) print '(a, i0, a, i0)', 'queue of ', num_images(), ' images: the sum of the squares is ', squares
end program
