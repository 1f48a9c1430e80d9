! Threads of OpenMP refer to a coarray, which one thread of an image may do: the job ends with a line that says so. Compiled
! without OpenMP it is right.
program parallel
  implicit none
  integer :: value[*], i, sum
  value = this_image()
  sync all
  sum = 0
  !$omp parallel do num_threads(4) reduction(+:sum)
  do i = 1, 400
    sum = sum + value[1 + mod(i, num_images())]
  end do
  if (this_image() == 1) print '(a)', 'parallel: done'
end program
