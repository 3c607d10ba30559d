# To be sourced. FFTW is timed beside the transforms; nothing else uses it, and it is no part of the library.
[ -f /usr/include/fftw3.h ] || { apt-get update -q && apt-get install -q -y libfftw3-dev; } >&2
