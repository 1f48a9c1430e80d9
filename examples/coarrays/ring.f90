program ring
  integer :: told[*], next
  next = merge(1, this_image() + 1, this_image() == num_images())
  told[next] = this_image()
  sync all
  print '(2(a, i0))', 'image ', this_image(), ' was told ', told
end program
