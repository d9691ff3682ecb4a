/* In place of what glibc's configure script writes. */
