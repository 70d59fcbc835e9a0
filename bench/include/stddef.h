/* The kit has a C compiler and a C library, but no headers.  These declare what peer/ and judge.c use. */
#pragma once
typedef __SIZE_TYPE__ size_t;
#define NULL ((void *)0)
typedef struct {
    _Alignas(long long) long long whole;
    _Alignas(long double) long double broken;
} max_align_t;
