/*
 * The standard types, as far as the modules use them. Where the platform has a Std_Types.h of its own, that one is
 * taken.
 */
#ifndef STD_TYPES_H
#define STD_TYPES_H

#include <stdint.h>

typedef uint8_t boolean;
typedef uint8_t uint8;
typedef uint16_t uint16;
typedef uint32_t uint32;
typedef uint64_t uint64;

typedef uint8 Std_ReturnType;

typedef struct {
    uint16 vendorID;
    uint16 moduleID;
    uint8 sw_major_version;
    uint8 sw_minor_version;
    uint8 sw_patch_version;
} Std_VersionInfoType;

#define E_OK ((Std_ReturnType)0u)
#define E_NOT_OK ((Std_ReturnType)1u)

#define FALSE ((boolean)0u)
#define TRUE ((boolean)1u)

#define NULL_PTR ((void *)0)

#endif
