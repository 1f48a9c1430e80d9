! Collectives: each intrinsic type and kind, arrays and scalars, result_image, sections, long ones, and operations of all sorts.
module operations
  implicit none
  type pair
    integer :: place
    real(8) :: value
  end type
  type small
    real :: a, b
  end type
  type tiny
    integer(2) :: a
  end type
  type big
    integer :: numbers(5)
    real(8) :: x
    character(3) :: text
  end type
contains
  subroutine check(is_right, what)
    logical, intent(in) :: is_right
    character(*), intent(in) :: what
    if (.not. is_right) then
      print *, 'image', this_image(), ': ', what
      error stop 1
    end if
  end subroutine
  pure integer function product_of(a, b)
    integer, intent(in) :: a, b
    product_of = a*b
  end function
  pure integer function product_of_values(a, b)
    integer, value :: a, b
    product_of_values = a*b
  end function
  pure integer(1) function or1(a, b)
    integer(1), intent(in) :: a, b
    or1 = ior(a, b)
  end function
  pure integer(8) function or8(a, b)
    integer(8), value :: a, b
    or8 = ior(a, b)
  end function
  pure real function greatest4(a, b)
    real, intent(in) :: a, b
    greatest4 = max(a, b)
  end function
  pure real(8) function greatest8(a, b)
    real(8), value :: a, b
    greatest8 = max(a, b)
  end function
  pure real(10) function sum10(a, b)
    real(10), intent(in) :: a, b
    sum10 = a + b
  end function
  pure real(16) function sum16(a, b)
    real(16), value :: a, b
    sum16 = a + b
  end function
  pure complex function times4(a, b)
    complex, intent(in) :: a, b
    times4 = a*b
  end function
  pure complex(8) function times8(a, b)
    complex(8), value :: a, b
    times8 = a*b
  end function
  pure logical function both(a, b)
    logical, intent(in) :: a, b
    both = a .and. b
  end function
  pure function later(a, b)
    character(4), intent(in) :: a, b
    character(4) :: later
    later = max(a, b)
  end function
  pure function joined(a, b) result(c)
    character(*), intent(in) :: a, b
    character(len(a)) :: c
    integer :: i
    do i = 1, len(a)
      c(i:i) = max(a(i:i), b(i:i))
    end do
  end function
  pure type(pair) function best(a, b)
    type(pair), intent(in) :: a, b
    best = a
    if (b%value > a%value) best = b
  end function
  pure type(small) function add_small(a, b)
    type(small), intent(in) :: a, b
    add_small = small(a%a + b%a, a%b*b%b)
  end function
  pure type(tiny) function add_tiny(a, b)
    type(tiny), intent(in) :: a, b
    add_tiny = tiny(a%a + b%a)
  end function
  pure type(big) function add_big(a, b)
    type(big), intent(in) :: a, b
    add_big = big(a%numbers + b%numbers, a%x*b%x, max(a%text, b%text))
  end function
end module

program collectives
  use operations
  implicit none
  integer :: me, n, i, total, whole, factor, numbers(5), grid(6, 8), few(3)
  integer(1) :: i1
  integer(2) :: i2
  integer(8) :: i8(2)
  integer(16) :: i16
  real :: r4, longs(30000)
  real(8) :: r8
  real(10) :: r10
  real(16) :: r16
  complex :: c4
  complex(8) :: c8(2)
  complex(10) :: c10
  complex(16) :: c16
  logical :: is
  character(4) :: text, texts(3)
  character(4, kind=4) :: wide
  type(pair) :: mine
  type(small) :: smalls(2)
  type(tiny) :: one
  type(big) :: bigs(2)
  integer, allocatable :: coarray(:)[:]

  me = this_image()
  n = num_images()
  total = n*(n + 1)/2
  factor = product([(i, i=1, n)])

  ! co_sum
  whole = me; call co_sum(whole)
  call check(whole == total, 'sum i4')
  i1 = int(me, 1); call co_sum(i1)
  call check(i1 == total, 'sum i1')
  i2 = int(me, 2); call co_sum(i2)
  call check(i2 == total, 'sum i2')
  i8 = [me, -me]*10000000000_8; call co_sum(i8)
  call check(all(i8 == [1, -1]*total*10000000000_8), 'sum i8')
  i16 = me*10_16**30; call co_sum(i16)
  call check(i16 == total*10_16**30, 'sum i16')
  r4 = me*0.5; call co_sum(r4)
  call check(r4 == total*0.5, 'sum r4')
  r8 = me*0.5d0; call co_sum(r8)
  call check(r8 == total*0.5d0, 'sum r8')
  r10 = me*0.5_10 + 2._10**(-60); call co_sum(r10)
  call check(r10 == total*0.5_10 + n*2._10**(-60), 'sum r10')
  r16 = me/3._16; call co_sum(r16)
  call check(abs(r16 - total/3._16) < 1e-30_16, 'sum r16')
  c4 = cmplx(me, -2*me); call co_sum(c4)
  call check(c4 == cmplx(total, -2*total), 'sum c4')
  c8 = [cmplx(me, me, 8), (1d0, 0d0)]; call co_sum(c8)
  call check(c8(1) == cmplx(total, total, 8) .and. c8(2) == n, 'sum c8')
  c10 = cmplx(me, 2*me, 10); call co_sum(c10)
  call check(c10 == cmplx(total, 2*total, 10), 'sum c10')
  c16 = cmplx(me, 2*me, 16)/7; call co_sum(c16)
  call check(abs(c16 - cmplx(total, 2*total, 16)/7) < 1e-30_16, 'sum c16')
  numbers = me + [1, 2, 3, 4, 5]; call co_sum(numbers)
  call check(all(numbers == total + n*[1, 2, 3, 4, 5]), 'sum of an array')
  whole = me; call co_sum(whole, result_image=n); if (me == n) call check(whole == total, 'sum to an image')
  grid = me; call co_sum(grid(2:6:2, 8:1:-3))
  call check(sum(grid) == 9*total + 39*me .and. grid(4, 5) == total, 'sum of a section')
  longs = [(me + i*0.5, i=1, 30000)]; call co_sum(longs)
  call check(all(longs == [(total + n*i*0.5, i=1, 30000)]), 'sum of a long array')
  allocate (coarray(3)[*]); coarray = me*[1, 2, 3]; call co_sum(coarray)
  call check(all(coarray == total*[1, 2, 3]), 'sum of a coarray')
  few = 5; call co_sum(few(3:2))
  call check(all(few == 5), 'sum of nothing')
  ! co_min and co_max
  whole = -me; call co_min(whole)
  call check(whole == -n, 'min i4')
  i8 = [me, 5 - me]; call co_max(i8)
  call check(all(i8 == [n, 4]), 'max i8')
  r4 = me; call co_max(r4)
  call check(r4 == n, 'max r4')
  r8 = me; call co_min(r8, result_image=1); if (me == 1) call check(r8 == 1, 'min r8')
  r10 = -me; call co_min(r10)
  call check(r10 == -n, 'min r10')
  r16 = -me/3._16; call co_max(r16)
  call check(r16 == -1/3._16, 'max r16')
  i16 = me; call co_max(i16)
  call check(i16 == n, 'max i16')
  text = 'a'//char(96 + me); call co_max(text)
  call check(text == 'a'//char(96 + n), 'max of texts')
  texts = ['b   ', char(123 - me)//'yz ', '    ']; call co_min(texts)
  call check(all(texts == ['b   ', char(123 - n)//'yz ', '    ']), 'min of texts')
  wide = 4_'x'; if (me == n) wide = 4_'yy'; call co_max(wide)
  call check(wide == 4_'yy', 'max of wide texts')
  ! co_broadcast
  whole = me; call co_broadcast(whole, n)
  call check(whole == n, 'broadcast')
  longs = me; call co_broadcast(longs(1:30000:2), 1)
  call check(all(longs(1::2) == 1) .and. all(longs(2::2) == me), 'broadcast of a long section')
  texts = char(64 + me); call co_broadcast(texts, 1)
  call check(all(texts == 'A'), 'broadcast of texts')
  mine = pair(me, me*2d0); call co_broadcast(mine, source_image=n)
  call check(mine%place == n .and. mine%value == 2*n, 'broadcast of a type')
  do i = 1, 100
    whole = me*i; call co_broadcast(whole, mod(i, n) + 1)
  call check(whole == (mod(i, n) + 1)*i, 'broadcasts in a row')
  end do
  ! co_reduce
  whole = me; call co_reduce(whole, product_of)
  call check(whole == factor, 'reduce i4')
  whole = me; call co_reduce(whole, product_of_values, result_image=1); if (me == 1) call check(whole == factor, 'reduce by value')
  numbers = me; call co_reduce(numbers, product_of)
  call check(all(numbers == factor), 'reduce of an array')
  i1 = int(2**(min(me, 7) - 1), 1); call co_reduce(i1, or1)
  call check(i1 == 2**min(n, 7) - 1, 'reduce i1')
  i8 = 2_8**(me + 40); call co_reduce(i8, or8)
  call check(all(i8 == 2_8**41*(2**n - 1)), 'reduce i8')
  r4 = me; call co_reduce(r4, greatest4)
  call check(r4 == n, 'reduce r4')
  r8 = me; call co_reduce(r8, greatest8)
  call check(r8 == n, 'reduce r8')
  r10 = me; call co_reduce(r10, sum10)
  call check(r10 == total, 'reduce r10')
  r16 = me/3._16; call co_reduce(r16, sum16)
  call check(abs(r16 - total/3._16) < 1e-30_16, 'reduce r16')
  c4 = (0., 1.); call co_reduce(c4, times4)
  call check(c4 == (0., 1.)**n, 'reduce c4')
  c8 = (0d0, 1d0); call co_reduce(c8, times8)
  call check(all(c8 == (0d0, 1d0)**n), 'reduce c8')
  is = me /= 2; call co_reduce(is, both)
  call check(is .eqv. n < 2, 'reduce of logicals')
  text = char(64 + me)//'xyz'; call co_reduce(text, later)
  call check(text == char(64 + n)//'xyz', 'reduce of texts')
  texts = ['axbb', char(64 + me)//'c  ', 'mnop']; call co_reduce(texts, joined)
  call check(all(texts == ['axbb', char(64 + n)//'c  ', 'mnop']), 'reduce of texts of any length')
  mine = pair(me, merge(10d0, me*1d0, me == (n + 1)/2)); call co_reduce(mine, best)
  call check(mine%place == (n + 1)/2 .and. mine%value == 10, 'reduce of a type of 16 bytes')
  smalls = small(me, 2); call co_reduce(smalls, add_small)
  call check(all(smalls%a == total) .and. all(smalls%b == 2.**n), 'reduce of a type of 8 bytes')
  one = tiny(int(me, 2)); call co_reduce(one, add_tiny)
  call check(one%a == total, 'reduce of a type of 2 bytes')
  bigs = big(me, 2, char(64 + me)); call co_reduce(bigs, add_big)
  call check(all(bigs(2)%numbers == total) .and. bigs(1)%x == 2d0**n, 'reduce of a type of 40 bytes')
  call check(bigs(2)%text == char(64 + n), 'its text')
  call long_ones([4095, 8191, 8193, 140000])
  if (me == 1) print *, 'collectives: done'
contains
  ! Lengths on both sides of those where the way of a reduction changes, and more than go at once.
  subroutine long_ones(lengths)
    integer, intent(in) :: lengths(:)
    real(8), allocatable :: values(:)
    integer(1), allocatable :: bytes(:)
    integer :: k
    do k = 1, size(lengths)
      values = [(me + i*0.5d0, i=1, lengths(k))]
      call co_sum(values)
      call check(all(values == [(total + n*i*0.5d0, i=1, lengths(k))]), 'a long sum')
      values = [(me + i*0.5d0, i=1, lengths(k))]
      call co_max(values, result_image=n)
      if (me == n) call check(all(values == [(n + i*0.5d0, i=1, lengths(k))]), 'a long maximum')
    end do
    bytes = [(int(mod(i, 7) + me, 1), i=1, 70001)]
    call co_sum(bytes)
    call check(all(bytes == [(int(n*mod(i, 7) + total, 1), i=1, 70001)]), 'a long sum of bytes')
  end subroutine
end program
