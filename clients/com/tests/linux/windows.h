/* As much of Windows as wire.c and connection.c use, so that they run under Linux and its
   sanitizers (fuzz.c). WCHAR has 16 bits: build with -fshort-wchar. */
#ifndef TESTS_WINDOWS_H
#define TESTS_WINDOWS_H

#include <errno.h>
#include <netdb.h>
#include <netinet/in.h>
#include <netinet/tcp.h>
#include <stdint.h>
#include <stdlib.h>
#include <string.h>
#include <sys/select.h>
#include <sys/socket.h>
#include <unistd.h>

typedef uint8_t BYTE;
typedef uint16_t WORD, USHORT, UINT16, VARTYPE, WCHAR;
typedef int16_t VARIANT_BOOL, SHORT;
typedef uint32_t DWORD, UINT, ULONG, UINT32, LCID;
typedef int32_t LONG, INT, BOOL, INT32, HRESULT, DISPID, SCODE;
typedef uint64_t UINT64, ULONGLONG;
typedef int64_t INT64, LONGLONG;
typedef WCHAR *BSTR;
typedef void *PVOID;
#define VOID void
#define CALLBACK
#define TRUE 1
#define FALSE 0
#define MAX_PATH 260
#define MAXDWORD 0xFFFFFFFFu

typedef struct GUID {
    UINT32 a;
    UINT16 b, c;
    BYTE d[8];
} GUID;

typedef const GUID *REFGUID, *REFIID;
extern const GUID GUID_NULL;
#define IsEqualGUID(one, other) (!memcmp(one, other, sizeof(GUID)))

#define S_OK 0
#define S_FALSE 1
#define FAILED(code) ((HRESULT)(code) < 0)
#define SUCCEEDED(code) ((HRESULT)(code) >= 0)
#define E_OUTOFMEMORY ((HRESULT)0x8007000E)
#define E_INVALIDARG ((HRESULT)0x80070057)
#define E_POINTER ((HRESULT)0x80004003)
#define DISP_E_TYPEMISMATCH ((HRESULT)0x80020005)
#define DISP_E_UNKNOWNNAME ((HRESULT)0x80020006)
#define DISP_E_BADVARTYPE ((HRESULT)0x80020008)
#define DISP_E_OVERFLOW ((HRESULT)0x8002000A)
#define DISP_E_BADINDEX ((HRESULT)0x8002000B)
#define DISP_E_BADPARAMCOUNT ((HRESULT)0x8002000E)
#define DISPID_UNKNOWN (-1)
#define DISPID_PROPERTYPUT (-3)
#define PARAMFLAG_FHASDEFAULT 0x20
#define IMPLTYPEFLAG_FDEFAULT 1

enum {
    DISPATCH_METHOD = 1,
    DISPATCH_PROPERTYGET = 2,
    DISPATCH_PROPERTYPUT = 4,
    DISPATCH_PROPERTYPUTREF = 8
};

enum { INVOKE_FUNC = 1, INVOKE_PROPERTYGET = 2, INVOKE_PROPERTYPUT = 4 };

/* ---- values */

enum {
    VT_EMPTY = 0,
    VT_NULL = 1,
    VT_I2 = 2,
    VT_I4 = 3,
    VT_R4 = 4,
    VT_R8 = 5,
    VT_CY = 6,
    VT_DATE = 7,
    VT_BSTR = 8,
    VT_DISPATCH = 9,
    VT_ERROR = 10,
    VT_BOOL = 11,
    VT_VARIANT = 12,
    VT_UNKNOWN = 13,
    VT_DECIMAL = 14,
    VT_I1 = 16,
    VT_UI1 = 17,
    VT_UI2 = 18,
    VT_UI4 = 19,
    VT_I8 = 20,
    VT_UI8 = 21,
    VT_INT = 22,
    VT_UINT = 23,
    VT_VOID = 24,
    VT_ARRAY = 0x2000,
    VT_BYREF = 0x4000
};

#define VARIANT_TRUE ((VARIANT_BOOL)-1)
#define DECIMAL_NEG 0x80
#define FADF_HAVEVARTYPE 0x80

typedef struct DECIMAL {
    USHORT reserved;
    BYTE scale, sign;
    ULONG Hi32;
    ULONGLONG Lo64;
} DECIMAL;

typedef struct CY {
    LONGLONG int64;
} CY;

typedef struct SAFEARRAYBOUND {
    ULONG cElements;
    LONG lLbound;
} SAFEARRAYBOUND;

typedef struct SAFEARRAY {
    USHORT cDims, fFeatures;
    ULONG cbElements, cLocks;
    PVOID pvData;
    SAFEARRAYBOUND rgsabound[];
} SAFEARRAY;

typedef struct VARIANT {
    union {
        struct {
            VARTYPE vt;
            WORD reserved[3];

            union {
                BYTE ui1;
                SHORT i2;
                USHORT ui2;
                LONG i4;
                ULONG ui4;
                LONGLONG i8;
                ULONGLONG ui8;
                VARIANT_BOOL truth;
                CY cy;
                BSTR text;
                SAFEARRAY *array;
                struct VARIANT *variant;
                PVOID by_reference;
                PVOID record[2];
            };
        };

        DECIMAL decimal;
    };
} VARIANT;

typedef struct DISPPARAMS {
    VARIANT *rgvarg;
    DISPID *rgdispidNamedArgs;
    UINT cArgs, cNamedArgs;
} DISPPARAMS;

#define V_VT(v) ((v)->vt)
#define V_UI1(v) ((v)->ui1)
#define V_I2(v) ((v)->i2)
#define V_UI2(v) ((v)->ui2)
#define V_I4(v) ((v)->i4)
#define V_UI4(v) ((v)->ui4)
#define V_I8(v) ((v)->i8)
#define V_UI8(v) ((v)->ui8)
#define V_BOOL(v) ((v)->truth)
#define V_CY(v) ((v)->cy)
#define V_BSTR(v) ((v)->text)
#define V_ARRAY(v) ((v)->array)
#define V_VARIANTREF(v) ((v)->variant)
#define V_BYREF(v) ((v)->by_reference)
#define V_DECIMAL(v) ((v)->decimal)

BSTR SysAllocStringByteLen(const char *bytes, UINT count);
UINT SysStringByteLen(BSTR text);
SAFEARRAY *SafeArrayCreate(VARTYPE type, UINT dimensions, const SAFEARRAYBOUND *bounds);
HRESULT SafeArrayDestroy(SAFEARRAY *array);
HRESULT SafeArrayGetVartype(SAFEARRAY *array, VARTYPE *type);
HRESULT VariantClear(VARIANT *value);
int lstrcmpW(const WCHAR *one, const WCHAR *other);
int lstrlenW(const WCHAR *text);

/* ---- locks, timers, time */

typedef struct CRITICAL_SECTION {
    int depth;
} CRITICAL_SECTION;

void InitializeCriticalSection(CRITICAL_SECTION *lock);
void EnterCriticalSection(CRITICAL_SECTION *lock);
void LeaveCriticalSection(CRITICAL_SECTION *lock);
void DeleteCriticalSection(CRITICAL_SECTION *lock);

typedef struct timer *PTP_TIMER;
typedef PVOID PTP_CALLBACK_INSTANCE;
typedef void (*PTP_TIMER_CALLBACK)(PTP_CALLBACK_INSTANCE, PVOID, PTP_TIMER);

typedef struct FILETIME {
    DWORD dwLowDateTime, dwHighDateTime;
} FILETIME;

typedef union LARGE_INTEGER {
    struct {
        DWORD LowPart;
        LONG HighPart;
    } u;

    LONGLONG QuadPart;
} LARGE_INTEGER;

PTP_TIMER CreateThreadpoolTimer(PTP_TIMER_CALLBACK call, PVOID context, PVOID environment);
void SetThreadpoolTimer(PTP_TIMER timer, FILETIME *due, DWORD period, DWORD window);
void WaitForThreadpoolTimerCallbacks(PTP_TIMER timer, BOOL cancel);
void CloseThreadpoolTimer(PTP_TIMER timer);
ULONGLONG GetTickCount64(void);

/* ---- sockets */

typedef int SOCKET;
#define INVALID_SOCKET (-1)
#define WSAETIMEDOUT 10060
#define MAKEWORD(low, high) ((WORD)((low) | (high) << 8))

typedef struct WSADATA {
    int none;
} WSADATA;
typedef struct addrinfo ADDRINFOW;
int WSAStartup(WORD version, WSADATA *told);
int WSACleanup(void);
int WSAGetLastError(void);
int GetAddrInfoW(const WCHAR *host, const WCHAR *port, const ADDRINFOW *hints, ADDRINFOW **list);
#define FreeAddrInfoW freeaddrinfo
#define WSA_FLAG_OVERLAPPED 1
#define WSA_FLAG_NO_HANDLE_INHERIT 0x80
#define WSASocketW(family, type, protocol, info, group, flags) socket(family, type, protocol)
#define closesocket close
int set_socket_option(SOCKET socket, int level, int option, const char *value, int size);
int connect_socket(SOCKET socket, const struct sockaddr *address, int size);
int send_bytes(SOCKET socket, const char *bytes, int count, int flags);
int receive_bytes(SOCKET socket, char *bytes, int count, int flags);
#ifndef OWN_SOCKETS
#define setsockopt set_socket_option
#define connect connect_socket
#define send send_bytes
#define recv receive_bytes
#endif

/* ---- what a test does to them */

extern long refused_in; /* the allocation that is refused, counted down; 0 for none */
void fire_timer(void);  /* runs the callback of the timer that was set last, where it is set */
void skip_time(ULONGLONG milliseconds);
extern long blocks; /* texts and arrays that are there */

void *tried_malloc(size_t size);
void *tried_calloc(size_t count, size_t size);
void *tried_realloc(void *block, size_t size);
#ifndef OWN_MEMORY
#define malloc tried_malloc
#define calloc tried_calloc
#define realloc tried_realloc
#endif

#endif
