! What one image prints: compared with what the same program prints with -fcoarray=single.
program single
  implicit none
  type thing
    integer :: i = 3
    real, allocatable :: x(:)
    character(:), allocatable :: text
  end type
  integer, save :: a(3, 4)[*], b(0:5)[0:*]
  type(thing), save :: things(2)[*]
  real, allocatable :: free(:)[:, :], taken(:)
  complex :: z(2)
  integer :: i, v(2)

  a = reshape([(i, i=1, 12)], [3, 4])
  b = [(i*i, i=0, 5)]
  print *, this_image(), num_images()
  print *, a(:, 2)[1], a(3:1:-1, 4)[1]
  v = [3, 1]
  print *, a(v, 3)[1], b(5:0:-2)[0]
  z = a(1:2, 1)[1]
  print *, z
  b(1:3)[0] = 7.9
  print *, b
  a(v, v)[1] = reshape([10, 20, 30, 40], [2, 2])
  print *, a
  allocate (free(4)[2, *])
  free = [1.5, 2.5, 3.5, 4.5]
  taken = free(2:3)[1, 1]
  print *, taken, size(taken), lcobound(free), ucobound(free, 1)
  things(2)%x = [4., 5., 6.]
  things(1)%i = 9
  taken = things(2)[1]%x
  print *, taken, things(:)[1]%i, allocated(things(1)[1]%x), allocated(things(2)[1]%x)
  things(2)[1]%x(2) = 8
  print *, things(2)%x
  print *, image_index(b, [0]), image_index(b, [1]), this_image(b), lcobound(b), ucobound(b)
  call co_sum(a)
  call co_max(free)
  call co_broadcast(b, 1)
  print *, sum(a), maxval(free), b
  print *, merge('allocated', 'free     ', allocated(free))
  deallocate (free)
  print *, merge('allocated', 'free     ', allocated(free))
end program
