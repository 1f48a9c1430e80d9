! random_init: whether seeds repeat, and whether images differ.
program random
  implicit none
  real(8), save :: first[*], second[*], third[*]
  integer, save :: seeds(8)[*]
  integer :: me, n, i, size
  real(8) :: x, y

  me = this_image()
  n = num_images()
  call random_seed(size=size)
  call check(size == 8, 'the size of a seed')
  call random_init(repeatable=.true., image_distinct=.true.)
  call random_number(first)
  call random_init(repeatable=.true., image_distinct=.true.)
  call random_number(x)
  call check(x == first, 'a repeatable seed')
  sync all
  do i = 1, n
    if (i /= me) call check(first[i] /= first, 'seeds of images differ')
  end do
  call random_init(repeatable=.true., image_distinct=.false.)
  call random_number(second)
  sync all
  call check(all([(second[i] == second, i=1, n)]), 'seeds of images are the same')
  call random_init(repeatable=.false., image_distinct=.false.)
  call random_number(third)
  sync all
  call check(all([(third[i] == third, i=1, n)]), 'seeds that don''t repeat are the same')
  call random_init(repeatable=.false., image_distinct=.false.)
  call random_number(x)
  call check(x /= third, 'seeds don''t repeat')
  call random_init(repeatable=.false., image_distinct=.true.)
  call random_number(first)
  call random_number(y)
  call check(first /= y .and. first >= 0 .and. first < 1, 'numbers')
  sync all
  do i = 1, n
    if (i /= me) call check(first[i] /= first, 'seeds that don''t repeat differ')
  end do
  ! Without random_init too.
  call random_seed()
  call random_seed(get=seeds)
  sync all
  do i = 1, n
    if (i /= me) call check(any(seeds(:)[i] /= seeds), 'random_seed')
  end do
  if (me == 1) print *, 'random: done'
contains
  include 'checks.inc'
end program
