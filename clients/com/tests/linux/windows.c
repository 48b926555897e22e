#define OWN_MEMORY
#define OWN_SOCKETS
#include "windows.h"

#include <assert.h>
#include <sys/time.h>
#include <time.h>

const GUID GUID_NULL;
long refused_in, blocks;

/* ---- memory */

static int is_refused(void)
{
    return refused_in && !--refused_in;
}

void *tried_malloc(size_t size)
{
    return is_refused() ? NULL : malloc(size);
}

void *tried_calloc(size_t count, size_t size)
{
    return is_refused() ? NULL : calloc(count, size);
}

void *tried_realloc(void *block, size_t size)
{
    return is_refused() ? NULL : realloc(block, size);
}

/* ---- values: each is a block of its own, exactly as long as it says */

BSTR SysAllocStringByteLen(const char *bytes, UINT count)
{
    char *block = tried_malloc(8 + (size_t)count + 2);

    if (!block)
        return NULL;
    blocks++;
    memcpy(block + 4, &count, sizeof count);
    if (bytes)
        memcpy(block + 8, bytes, count);
    memset(block + 8 + count, 0, 2);
    return (BSTR)(block + 8);
}

UINT SysStringByteLen(BSTR text)
{
    UINT count = 0;

    if (text)
        memcpy(&count, (char *)text - 4, sizeof count);
    return count;
}

static void free_text(BSTR text)
{
    if (text) {
        blocks--;
        free((char *)text - 8);
    }
}

static size_t size_of(VARTYPE type)
{
    switch (type) {
    case VT_I1:
    case VT_UI1:
        return 1;
    case VT_I2:
    case VT_UI2:
    case VT_BOOL:
        return 2;
    case VT_I4:
    case VT_UI4:
    case VT_INT:
    case VT_UINT:
    case VT_R4:
        return 4;
    case VT_I8:
    case VT_UI8:
    case VT_CY:
    case VT_R8:
        return 8;
    case VT_BSTR:
        return sizeof(BSTR);
    case VT_VARIANT:
        return sizeof(VARIANT);
    }
    abort();
}

static size_t cells_of(const SAFEARRAY *array)
{
    size_t cells = 1;
    int i;

    for (i = 0; i < array->cDims; i++)
        cells *= array->rgsabound[i].cElements;
    return cells;
}

/* The type of its cells stands before an array. */
#define BEFORE 16

SAFEARRAY *SafeArrayCreate(VARTYPE type, UINT dimensions, const SAFEARRAYBOUND *bounds)
{
    BYTE *block = tried_malloc(BEFORE + sizeof(SAFEARRAY) + dimensions * sizeof *bounds);
    SAFEARRAY *array;
    UINT i;

    assert(dimensions > 0);
    if (!block)
        return NULL;
    memcpy(block, &type, sizeof type);
    array = (SAFEARRAY *)(block + BEFORE);
    memset(array, 0, sizeof *array);
    array->cDims = (USHORT)dimensions;
    array->fFeatures = FADF_HAVEVARTYPE | (type == VT_BSTR      ? 0x100
                                           : type == VT_VARIANT ? 0x800
                                                                : 0);
    array->cbElements = (ULONG)size_of(type);
    for (i = 0; i < dimensions; i++)
        array->rgsabound[i] = bounds[dimensions - 1 - i];
    array->pvData = tried_malloc(cells_of(array) * array->cbElements);
    if (!array->pvData) {
        free(block);
        return NULL;
    }
    memset(array->pvData, 0, cells_of(array) * array->cbElements);
    blocks++;
    return array;
}

HRESULT SafeArrayGetVartype(SAFEARRAY *array, VARTYPE *type)
{
    memcpy(type, (BYTE *)array - BEFORE, sizeof *type);
    return S_OK;
}

HRESULT SafeArrayDestroy(SAFEARRAY *array)
{
    size_t i, cells = cells_of(array);

    for (i = 0; i < cells; i++)
        if (array->fFeatures & 0x100)
            free_text(((BSTR *)array->pvData)[i]);
        else if (array->fFeatures & 0x800)
            VariantClear((VARIANT *)array->pvData + i);
    free(array->pvData);
    free((BYTE *)array - BEFORE);
    blocks--;
    return S_OK;
}

HRESULT VariantClear(VARIANT *value)
{
    if (V_VT(value) & VT_BYREF)
        ;
    else if (V_VT(value) & VT_ARRAY)
        SafeArrayDestroy(V_ARRAY(value));
    else if (V_VT(value) == VT_BSTR)
        free_text(V_BSTR(value));
    V_VT(value) = VT_EMPTY;
    return S_OK;
}

int lstrlenW(const WCHAR *text)
{
    int length = 0;

    while (text && text[length])
        length++;
    return length;
}

int lstrcmpW(const WCHAR *one, const WCHAR *other)
{
    while (*one && *one == *other)
        one++, other++;
    return *one - *other;
}

/* ---- locks: one thread, so only their balance counts */

void InitializeCriticalSection(CRITICAL_SECTION *lock)
{
    lock->depth = 0;
}

void EnterCriticalSection(CRITICAL_SECTION *lock)
{
    lock->depth++;
}

void LeaveCriticalSection(CRITICAL_SECTION *lock)
{
    assert(lock->depth > 0);
    lock->depth--;
}

void DeleteCriticalSection(CRITICAL_SECTION *lock)
{
    assert(lock->depth == 0);
}

/* ---- timers and time */

struct timer {
    PTP_TIMER_CALLBACK call;
    PVOID context;
    int is_set;
};

static PTP_TIMER last_timer;
static ULONGLONG skipped;

PTP_TIMER CreateThreadpoolTimer(PTP_TIMER_CALLBACK call, PVOID context, PVOID environment)
{
    PTP_TIMER timer = tried_calloc(1, sizeof *timer);

    (void)environment;
    if (timer) {
        timer->call = call;
        timer->context = context;
    }
    return timer;
}

void SetThreadpoolTimer(PTP_TIMER timer, FILETIME *due, DWORD period, DWORD window)
{
    (void)period;
    (void)window;
    timer->is_set = due != NULL;
    last_timer = timer;
}

void WaitForThreadpoolTimerCallbacks(PTP_TIMER timer, BOOL cancel)
{
    assert(cancel && !timer->is_set);
}

void CloseThreadpoolTimer(PTP_TIMER timer)
{
    if (timer == last_timer)
        last_timer = NULL;
    free(timer);
}

void fire_timer(void)
{
    PTP_TIMER timer = last_timer;

    if (timer && timer->is_set) {
        timer->is_set = 0;
        timer->call(NULL, timer->context, timer);
    }
}

void skip_time(ULONGLONG milliseconds)
{
    skipped += milliseconds;
}

ULONGLONG GetTickCount64(void)
{
    struct timespec now;

    clock_gettime(CLOCK_MONOTONIC, &now);
    return (ULONGLONG)now.tv_sec * 1000 + (ULONGLONG)now.tv_nsec / 1000000 + skipped;
}

/* ---- sockets */

int WSAStartup(WORD version, WSADATA *told)
{
    (void)version;
    (void)told;
    return 0;
}

int WSACleanup(void)
{
    return 0;
}

int WSAGetLastError(void)
{
    return errno == EAGAIN || errno == EWOULDBLOCK ? WSAETIMEDOUT : errno;
}

static void narrow(const WCHAR *from, char *to, size_t room)
{
    size_t i;

    for (i = 0; i + 1 < room && from[i]; i++)
        to[i] = (char)from[i];
    to[i] = 0;
}

/* A host with commas has several addresses, in this order. */
int GetAddrInfoW(const WCHAR *host, const WCHAR *port, const ADDRINFOW *hints, ADDRINFOW **list)
{
    char names[256], service[16], *name, *left;
    int cause;

    narrow(host, names, sizeof names);
    narrow(port, service, sizeof service);
    *list = NULL;
    for (name = strtok_r(names, ",", &left); name; name = strtok_r(NULL, ",", &left)) {
        if ((cause = getaddrinfo(name, service, hints, list)))
            return cause;
        while (*list)
            list = &(*list)->ai_next;
    }
    return 0;
}

int set_socket_option(SOCKET socket, int level, int option, const char *value, int size)
{
    struct timeval time;
    DWORD number;

    memcpy(&number, value, sizeof number);
    if (level != SOL_SOCKET)
        return setsockopt(socket, level, option, value, (socklen_t)size);
    time.tv_sec = number / 1000;
    time.tv_usec = number % 1000 * 1000;
    return setsockopt(socket, level, option, &time, sizeof time);
}

int connect_socket(SOCKET socket, const struct sockaddr *address, int size)
{
    return connect(socket, address, (socklen_t)size);
}

int send_bytes(SOCKET socket, const char *bytes, int count, int flags)
{
    return (int)send(socket, bytes, (size_t)count, flags);
}

int receive_bytes(SOCKET socket, char *bytes, int count, int flags)
{
    return (int)recv(socket, bytes, (size_t)count, flags);
}
