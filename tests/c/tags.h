/* The tags of fields that the programs here are built of. */
#ifndef TAGS_H
#define TAGS_H

#define FAMILY 1
#define QREG 2
#define CREG 3
#define IF 6
#define QBIT 16
#define QBITS 17
#define FAMILY_TYPE 18
#define H 32
#define T 33
#define CX 35
#define CALL 36
#define REVERSE 37
#define FOR 38
#define LONG_CALL 39
#define PHASE 40
#define CPHASE 41
#define PARAMETER_CALL 42
#define WHOLE 48
#define ELEMENT 49
#define SLICE 50
#define PASSED 51
#define SUM 66
#define DIFFERENCE 67
#define PRODUCT 68

#endif
