/* As much of Windows' type libraries as tlb2idl.c uses, so that it runs under Linux and its
 * sanitizers (libraries.c). */
#ifndef TESTS_TYPELIB_H
#define TESTS_TYPELIB_H

#include "windows.h"

#define Data1 a
#define Data2 b
#define Data3 c
#define Data4 d
#define V_R4(v)            \
    (((union {             \
         DWORD bits;       \
         float real;       \
     }){.bits = V_UI4(v)}) \
         .real)
#define V_R8(v)            \
    (((union {             \
         ULONGLONG bits;   \
         double real;      \
     }){.bits = V_UI8(v)}) \
         .real)

enum {
    VT_HRESULT = 25,
    VT_PTR = 26,
    VT_SAFEARRAY = 27,
    VT_CARRAY = 28,
    VT_USERDEFINED = 29,
    VT_LPSTR = 30,
    VT_LPWSTR = 31,
    VT_INT_PTR = 37,
    VT_UINT_PTR = 38,
    VT_FILETIME = 64,
    VT_CLSID = 72
};

enum {
    INVOKE_PROPERTYPUTREF = 8,
    PARAMFLAG_FOUT = 2,
    PARAMFLAG_FLCID = 4,
    PARAMFLAG_FRETVAL = 8,
    PARAMFLAG_FOPT = 0x10
};

enum {
    FUNCFLAG_FRESTRICTED = 1,
    VARFLAG_FREADONLY = 1,
    TYPEFLAG_FDUAL = 0x40,
    TYPEFLAG_FDISPATCHABLE = 0x1000,
    IMPLTYPEFLAG_FSOURCE = 2
};

#define MEMBERID_NIL (-1)
#define CP_UTF8 65001

typedef int64_t INT_LONG;
typedef LONG MEMBERID;
typedef DWORD HREFTYPE;

typedef enum TYPEKIND {
    TKIND_ENUM,
    TKIND_RECORD,
    TKIND_MODULE,
    TKIND_INTERFACE,
    TKIND_DISPATCH,
    TKIND_COCLASS,
    TKIND_ALIAS,
    TKIND_UNION,
    TKIND_MAX
} TYPEKIND;

typedef struct TYPEDESC {
    union {
        struct TYPEDESC *lptdesc;
        HREFTYPE hreftype;
    };

    VARTYPE vt;
} TYPEDESC;

typedef struct PARAMDESCEX {
    ULONG cBytes;
    VARIANT varDefaultValue;
} PARAMDESCEX;

typedef struct PARAMDESC {
    PARAMDESCEX *pparamdescex;
    USHORT wParamFlags;
} PARAMDESC;

typedef struct ELEMDESC {
    TYPEDESC tdesc;
    PARAMDESC paramdesc;
} ELEMDESC;

typedef struct FUNCDESC {
    MEMBERID memid;
    ELEMDESC *lprgelemdescParam;
    int invkind;
    SHORT cParams, cParamsOpt;
    ELEMDESC elemdescFunc;
    WORD wFuncFlags;
} FUNCDESC;

typedef struct VARDESC {
    MEMBERID memid;
    ELEMDESC elemdescVar;
    WORD wVarFlags;
} VARDESC;

typedef struct TYPEATTR {
    GUID guid;
    TYPEKIND typekind;
    WORD cFuncs, cVars, cImplTypes, wTypeFlags;
    TYPEDESC tdescAlias;
} TYPEATTR;

typedef struct TLIBATTR {
    GUID guid;
    WORD wMajorVerNum, wMinorVerNum;
} TLIBATTR;
typedef struct ITypeLib ITypeLib;
typedef struct ITypeInfo ITypeInfo;

UINT ITypeLib_GetTypeInfoCount(ITypeLib *of);
HRESULT ITypeLib_GetTypeInfo(ITypeLib *of, UINT place, ITypeInfo **info);
HRESULT ITypeLib_GetLibAttr(ITypeLib *of, TLIBATTR **attributes);
void ITypeLib_ReleaseTLibAttr(ITypeLib *of, TLIBATTR *attributes);
HRESULT ITypeLib_GetDocumentation(ITypeLib *of, INT place, BSTR *name, BSTR *text, DWORD *context,
                                  BSTR *file);
void ITypeInfo_AddRef(ITypeInfo *info);
void ITypeInfo_Release(ITypeInfo *info);
HRESULT ITypeInfo_GetTypeAttr(ITypeInfo *info, TYPEATTR **attributes);
void ITypeInfo_ReleaseTypeAttr(ITypeInfo *info, TYPEATTR *attributes);
HRESULT ITypeInfo_GetFuncDesc(ITypeInfo *info, UINT place, FUNCDESC **function);
void ITypeInfo_ReleaseFuncDesc(ITypeInfo *info, FUNCDESC *function);
HRESULT ITypeInfo_GetVarDesc(ITypeInfo *info, UINT place, VARDESC **variable);
void ITypeInfo_ReleaseVarDesc(ITypeInfo *info, VARDESC *variable);
HRESULT ITypeInfo_GetNames(ITypeInfo *info, MEMBERID id, BSTR *names, UINT most, UINT *count);
HRESULT ITypeInfo_GetDocumentation(ITypeInfo *info, MEMBERID id, BSTR *name, BSTR *text,
                                   DWORD *context, BSTR *file);
HRESULT ITypeInfo_GetRefTypeOfImplType(ITypeInfo *info, UINT place, HREFTYPE *reference);
HRESULT ITypeInfo_GetImplTypeFlags(ITypeInfo *info, UINT place, INT *flags);
HRESULT ITypeInfo_GetRefTypeInfo(ITypeInfo *info, HREFTYPE reference, ITypeInfo **found);
UINT SysStringLen(BSTR text);
void SysFreeString(BSTR text);
int WideCharToMultiByte(UINT page, DWORD flags, const WCHAR *wide, int count, char *bytes, int room,
                        const char *other, BOOL *used);

#endif
