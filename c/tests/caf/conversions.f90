! Conversions of type and kind, by gets and by sends: what they give is what an assignment here gives.
module checks
  implicit none
contains
  subroutine check(is_right, what)
    logical, intent(in) :: is_right
    character(*), intent(in) :: what
    if (.not. is_right) then
      print *, 'image', this_image(), ': ', what
      error stop 1
    end if
  end subroutine
end module

program conversions
  use checks
  implicit none
  integer(1), save :: i1(3)[*]
  integer(2), save :: i2(3)[*]
  integer(4), save :: i4(3)[*]
  integer(8), save :: i8(3)[*]
  integer(16), save :: i16(3)[*]
  real(4), save :: r4(3)[*]
  real(8), save :: r8(3)[*]
  real(10), save :: r10(3)[*]
  real(16), save :: r16(3)[*]
  complex(4), save :: c4(3)[*]
  complex(8), save :: c8(3)[*]
  complex(10), save :: c10(3)[*]
  complex(16), save :: c16(3)[*]
  logical(1), save :: l1(3)[*]
  logical(2), save :: l2(3)[*]
  logical(4), save :: l4(3)[*]
  logical(8), save :: l8(3)[*]
  logical(16), save :: l16(3)[*]
  character(5), save :: text(3)[*]
  character(5, kind=4), save :: wide(3)[*]
  character(3) :: short(3)
  character(8) :: long(3)
  character(2, kind=4) :: wide_short(3)
  character(8, kind=4) :: wide_long(3)
  integer(1) :: a1(3)
  integer(2) :: a2(3)
  integer(4) :: a4(3)
  integer(8) :: a8(3)
  integer(16) :: a16(3)
  real(4) :: x4(3)
  real(8) :: x8(3)
  real(10) :: x10(3)
  real(16) :: x16(3)
  complex(4) :: z4(3)
  complex(8) :: z8(3)
  complex(10) :: z10(3)
  complex(16) :: z16(3)
  logical(1) :: b1(3)
  logical(4) :: b4(3)
  logical(8) :: b8(3)
  integer :: n

  n = mod(this_image(), num_images()) + 1
  i1 = [1_1, -100_1, 127_1]
  i2 = [1_2, -30000_2, 127_2]
  i4 = [1, -70000, 16777217]
  i8 = [1_8, -70000_8, 9007199254740993_8]
  i16 = [1_16, -70000_16, 170141183460469231731687303715884105727_16]
  r4 = [1.75, -2.5, 1e10]
  r8 = [1.75d0, -2.9d0, 1d10/3]
  r10 = [1.75_10, -2.9_10, 1e10_10/3]
  r16 = [1.75_16, -2.9_16, 1e10_16/3]
  c4 = [(1.5, 2.5), (-3.75, 4.0), (1e5, -1.0)]
  c8 = c4/3
  c10 = c8/7
  c16 = c10/11
  l1 = [.true., .false., .true.]
  l2 = l1
  l4 = l1
  l8 = l1
  l16 = l1
  text = ['abcde', 'f    ', 'ghi  ']
  wide = [4_'abcde', 4_'f    ', 4_'ghi  ']
  sync all

  ! To integers.
  a4 = i1(:)[n]
  call check(all(a4 == i1), 'i1 i4')
  a8 = i2(:)[n]
  call check(all(a8 == i2), 'i2 i8')
  a16 = i4(:)[n]
  call check(all(a16 == i4), 'i4 i16')
  a1(1:1) = i4(1:1)[n]
  call check(a1(1) == 1, 'i4 i1')
  a2 = i1(:)[n]
  call check(all(a2 == i1), 'i1 i2')
  a4(1:2) = i8(1:2)[n]
  call check(all(a4(1:2) == i8(1:2)), 'i8 i4')
  a8(1:2) = i16(1:2)[n]
  call check(all(a8(1:2) == i16(1:2)), 'i16 i8')
  a4(1:2) = r8(1:2)[n]
  call check(all(a4(1:2) == [1, -2]), 'r8 i4')
  a8 = r8(:)[n]
  call check(all(a8 == int(r8, 8)), 'r8 i8')
  a16 = r16(:)[n]
  call check(all(a16 == int(r16, 16)), 'r16 i16')
  a8 = r10(:)[n]
  call check(all(a8 == int(r10, 8)), 'r10 i8')
  a4(1:2) = c4(1:2)[n]
  call check(all(a4(1:2) == [1, -3]), 'c4 i4')
  ! To reals.
  x4 = i4(:)[n]
  call check(all(x4 == real(i4, 4)), 'i4 r4')
  x8 = i8(:)[n]
  call check(all(x8 == real(i8, 8)), 'i8 r8')
  x10 = i8(:)[n]
  call check(all(x10 == real(i8, 10)), 'i8 r10')
  x16 = i16(:)[n]
  call check(all(x16 == real(i16, 16)), 'i16 r16')
  x8 = r4(:)[n]
  call check(all(x8 == r4), 'r4 r8')
  x4 = r8(:)[n]
  call check(all(x4 == real(r8, 4)), 'r8 r4')
  x10 = r8(:)[n]
  call check(all(x10 == r8), 'r8 r10')
  x16 = r10(:)[n]
  call check(all(x16 == r10), 'r10 r16')
  x10 = r16(:)[n]
  call check(all(x10 == real(r16, 10)), 'r16 r10')
  x8 = r16(:)[n]
  call check(all(x8 == real(r16, 8)), 'r16 r8')
  x4 = r10(:)[n]
  call check(all(x4 == real(r10, 4)), 'r10 r4')
  x8 = c8(:)[n]
  call check(all(x8 == real(c8)), 'c8 r8')
  x4 = c16(:)[n]
  call check(all(x4 == real(c16, 4)), 'c16 r4')
  ! To complex ones.
  z4 = i1(:)[n]
  call check(all(z4 == cmplx(i1)), 'i1 c4')
  z8 = r4(:)[n]
  call check(all(z8 == cmplx(r4, 0, 8)), 'r4 c8')
  z8 = c4(:)[n]
  call check(all(z8 == c4), 'c4 c8')
  z4 = c8(:)[n]
  call check(all(z4 == cmplx(c8, kind=4)), 'c8 c4')
  z10 = c8(:)[n]
  call check(all(z10 == c8), 'c8 c10')
  z16 = c10(:)[n]
  call check(all(z16 == c10), 'c10 c16')
  z8 = c16(:)[n]
  call check(all(z8 == cmplx(c16, kind=8)), 'c16 c8')
  x8(2) = c8(2)[n]%im
  call check(x8(2) == aimag(c8(2)), 'c8%im r8')
  x4(1:2) = c8(1:3:2)[n]%re
  call check(all(x4(1:2) == real([c8(1), c8(3)], 4)), 'c8%re r4')
  ! Logicals.
  b4 = l1(:)[n]
  call check(all(b4 .eqv. [.true., .false., .true.]), 'l1 l4')
  b1 = l8(:)[n]
  call check(logical(all(b1 .eqv. [.true., .false., .true.])), 'l8 l1')
  b8 = l2(:)[n]
  call check(logical(all(b8 .eqv. [.true., .false., .true.])), 'l2 l8')
  b4 = l16(:)[n]
  call check(all(b4 .eqv. [.true., .false., .true.]), 'l16 l4')
  ! Characters.
  short = text(:)[n]
  call check(all(short == ['abc', 'f  ', 'ghi']), 'text cut')
  long = text(:)[n]
  call check(all(long == text) .and. long(2)(6:8) == '   ', 'text padded')
  wide_long = text(:)[n]
  call check(all(wide_long == wide), 'text widened')
  wide_short = text(:)[n]
  call check(all(wide_short == [4_'ab', 4_'f ', 4_'gh']), 'text widened and cut')
  short = wide(:)[n]
  call check(all(short == ['abc', 'f  ', 'ghi']), 'wide text narrowed')
  wide_short = wide(:)[n]
  call check(all(wide_short == [4_'ab', 4_'f ', 4_'gh']), 'wide text cut')
  wide_long = wide(:)[n]
  call check(all(wide_long == wide), 'wide text padded')
  ! Sections: each second one here, and there.
  x8 = -1
  x8(1:3:2) = i4(1:3:2)[n]
  call check(all(x8 == [1, -1, 16777217]), 'a section here and there')
  sync all ! nobody sends before all have checked

  ! Sends, whole, of sections, and of one to all.
  i1(:)[n] = [10, 20, -30]
  i2(:)[n] = 3.9
  i4(:)[n] = [1.9d0, -1.9d0, 7d0]
  i8(1:3:2)[n] = [5_1, 6_1]
  i16(2)[n] = (7.5, 1.0)
  r4(:)[n] = [1, 2, 3]
  r8(:)[n] = [1.5_16, 2.5_16, 3.5_16]
  r10(:)[n] = [1.5, 2.5, 3.5]
  r16([3, 1])[n] = [1.5_10, 2.5_10]
  c4(:)[n] = [1d0, 2d0, 3d0]
  c8(:)[n] = (1.5_4, -2.5_4)
  c10(:)[n] = 3
  c16(:)[n] = [(1d0, 2d0), (3d0, 4d0), (5d0, 6d0)]
  l1(:)[n] = [.false._8, .true._8, .true._8]
  l8(:)[n] = .true._1
  text(1)[n] = 4_'wide text'
  text(2:3)[n] = ['x ', 'yz']
  wide(:)[n] = 'narrow'
  sync all
  call check(all(i1 == [10, 20, -30]), 'send i4 i1')
  call check(all(i2 == 3), 'send r4 i2')
  call check(all(i4 == [1, -1, 7]), 'send r8 i4')
  call check(i8(1) == 5 .and. i8(2) == -70000 .and. i8(3) == 6, 'send i1 i8')
  call check(i16(2) == 7, 'send c4 i16')
  call check(all(r4 == [1., 2., 3.]), 'send i4 r4')
  call check(all(r8 == [1.5, 2.5, 3.5]), 'send r16 r8')
  call check(all(r10 == [1.5, 2.5, 3.5]), 'send r4 r10')
  call check(r16(3) == 1.5 .and. r16(1) == 2.5, 'send r10 r16')
  call check(all(c4 == [(1., 0.), (2., 0.), (3., 0.)]), 'send r8 c4')
  call check(all(c8 == (1.5, -2.5)), 'send c4 c8')
  call check(all(c10 == 3), 'send i4 c10')
  call check(all(c16 == [(1., 2.), (3., 4.), (5., 6.)]), 'send c8 c16')
  call check(logical(all(l1 .eqv. [.false., .true., .true.])), 'send l8 l1')
  call check(logical(all(l8)), 'send l1 l8')
  call check(text(1) == 'wide ' .and. text(2) == 'x    ' .and. text(3) == 'yz   ', 'send texts')
  call check(all(wide == 4_'narro'), 'send wide')
  sync all
  ! From image to image, with a conversion.
  r8(:)[n] = i4(:)[n]
  text(2)[n] = wide(1)[n]
  sync all
  call check(all(r8 == [1, -1, 7]), 'sendget i4 r8')
  call check(text(2) == 'narro', 'sendget wide text')
  if (this_image() == 1) print *, 'conversions: done'
end program
