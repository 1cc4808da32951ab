// What the C programs here use of this header.
#pragma once
int printf(const char *, ...);
