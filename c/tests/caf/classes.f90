! Functions of small derived types, which caf compiles in its own way: those of the program, and IEEE_CLASS.
module small
  implicit none
  type two
    real :: a, b
  end type
contains
  type(two) function both(a, b)
    real, intent(in) :: a, b
    both = two(a, b)
  end function
end module

program classes
  use small
  use, intrinsic :: ieee_arithmetic
  use, intrinsic :: iso_c_binding
  implicit none
  type(two) :: pair
  real, target :: x
  type(c_ptr) :: place
  pair = both(1., 2.)
  call check(pair%a == 1 .and. pair%b == 2, 'a function of the program')
  x = 5
  place = c_loc(x)
  call check(c_associated(place), 'c_loc')
  call check(ieee_class(1.) == ieee_positive_normal .and. ieee_class(-2d0) == ieee_negative_normal, 'normal')
  call check(ieee_class(0._10) == ieee_positive_zero .and. ieee_class(-0._16) == ieee_negative_zero, 'zero')
  call check(ieee_class(ieee_value(x, ieee_quiet_nan)) == ieee_quiet_nan, 'quiet')
  call check(ieee_class(ieee_value(1d0, ieee_negative_inf)) == ieee_negative_inf, 'infinite')
  call check(ieee_class(ieee_value(1._16, ieee_positive_inf)) == ieee_positive_inf, 'infinite of kind 16')
  call check(ieee_class(tiny(1d0)/4) == ieee_positive_denormal .and. ieee_class(-tiny(1.)/4) == ieee_negative_denormal, 'subnormal')
  call check(ieee_class(1._10) == ieee_positive_normal .and. ieee_class(-1._16) == ieee_negative_normal, 'wide')
  call check(ieee_is_nan(ieee_value(x, ieee_quiet_nan)) .and. ieee_is_finite(1.), 'logicals')
  if (this_image() == 1) print *, 'classes: done'
contains
  include 'checks.inc'
end program
