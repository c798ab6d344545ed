"""What ./package makes of the proved program: an archive, a Debian package and a wheel, and what goes into them."""
