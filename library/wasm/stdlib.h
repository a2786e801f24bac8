/* What library/livingstone.c takes of a C library, where there is none; memory.c has it. */
#pragma once
#include "stddef.h"
void *malloc(size_t size);
void *realloc(void *at, size_t size);
void free(void *at);
