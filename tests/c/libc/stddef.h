// What the C programs here use of this header: the kit has the C library without its headers.
#pragma once
typedef __SIZE_TYPE__ size_t;
#define NULL ((void *)0)
