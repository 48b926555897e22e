/* wine_client HOST PORT SERVICE LEVEL IPID TYPE LIBRARY COMP: IDispatch, ITypeInfo, ITypeLib and
   ITypeComp by Wine's own proxy (oleaut32) and Wine's own RPC (rpcrt4), with ORPCTHIS by hand,
   since Wine has no remote activation. Left out are three forms that are Wine's own: a BSTR of 3
   bytes, which comes back as 4, and arrays of BSTR and VARIANT, which Wine sends without referents.
   Prints a line for each case. */
#define COBJMACROS
#include <windows.h>
#include <rpc.h>
#include <rpcndr.h>
#include <oleauto.h>
#include <objidl.h>
#include <stdio.h>

static RPC_BINDING_HANDLE binding;
static RPC_CLIENT_INTERFACE client = {
    sizeof client,
    {{0}, {0, 0}},
    {{0x8a885d04, 0x1ceb, 0x11c9, {0x9f, 0xe8, 0x08, 0x00, 0x2b, 0x10, 0x48, 0x60}}, {2, 0}},
    NULL,
    0,
    NULL,
    0,
    NULL,
    0};

typedef struct {
    IRpcChannelBuffer face;
    LONG refs;
    RPC_MESSAGE msg;
} Channel;

static HRESULT WINAPI ch_qi(IRpcChannelBuffer *s, REFIID iid, void **out)
{
    *out = s;
    return S_OK;
}

static ULONG WINAPI ch_ref(IRpcChannelBuffer *s)
{
    return 2;
}

static HRESULT WINAPI ch_get(IRpcChannelBuffer *s, RPCOLEMESSAGE *m, REFIID iid)
{
    Channel *c = (Channel *)s;
    unsigned char *b;
    RPC_STATUS st;
    memset(&c->msg, 0, sizeof c->msg);
    client.InterfaceId.SyntaxGUID = *iid;
    c->msg.Handle = binding;
    c->msg.BufferLength = m->cbBuffer + 32;
    c->msg.ProcNum = m->iMethod;
    c->msg.DataRepresentation = NDR_LOCAL_DATA_REPRESENTATION;
    c->msg.RpcInterfaceInformation = &client;
    c->msg.RpcFlags = RPC_BUFFER_COMPLETE;
    st = I_RpcGetBuffer(&c->msg);
    if (st) {
        printf("I_RpcGetBuffer %ld\n", st);
        return HRESULT_FROM_WIN32(st);
    }
    b = c->msg.Buffer;
    memset(b, 0, 32);
    b[0] = 5;
    b[2] = 7;
    CoCreateGuid((GUID *)(b + 12));
    m->Buffer = b + 32;
    m->dataRepresentation = c->msg.DataRepresentation;
    return S_OK;
}

static HRESULT WINAPI ch_send(IRpcChannelBuffer *s, RPCOLEMESSAGE *m, ULONG *status)
{
    Channel *c = (Channel *)s;
    RPC_STATUS st;
    c->msg.BufferLength = m->cbBuffer + 32;
    st = I_RpcSendReceive(&c->msg);
    *status = st;
    if (st) {
        printf("I_RpcSendReceive %lx\n", st);
        return st & 0x80000000 ? (HRESULT)st : HRESULT_FROM_WIN32(st);
    }
    m->Buffer = (char *)c->msg.Buffer + 8;
    m->cbBuffer = c->msg.BufferLength - 8;
    m->dataRepresentation = c->msg.DataRepresentation;
    return S_OK;
}

static HRESULT WINAPI ch_free(IRpcChannelBuffer *s, RPCOLEMESSAGE *m)
{
    Channel *c = (Channel *)s;
    c->msg.Buffer = NULL;
    return S_OK;
}

static HRESULT WINAPI ch_ctx(IRpcChannelBuffer *s, DWORD *ctx, void **p)
{
    *ctx = MSHCTX_DIFFERENTMACHINE;
    if (p)
        *p = NULL;
    return S_OK;
}

static HRESULT WINAPI ch_conn(IRpcChannelBuffer *s)
{
    return S_OK;
}

static const IRpcChannelBufferVtbl vt = {ch_qi,   ch_ref,  ch_ref, ch_get,
                                         ch_send, ch_free, ch_ctx, ch_conn};
static Channel channel = {{(IRpcChannelBufferVtbl *)&vt}};
static IDispatch *d;
static int fails;

static void ok(const char *what, int good)
{
    printf("%s\t%s\n", good ? "ok" : "FAIL", what);
    fails += !good;
    fflush(stdout);
}

static HRESULT put(DISPID id, VARIANT *args, UINT n, EXCEPINFO *e, UINT *err)
{
    DISPID put = DISPID_PROPERTYPUT;
    DISPPARAMS p = {args, &put, n, 1};
    return IDispatch_Invoke(d, id, &IID_NULL, 0, DISPATCH_PROPERTYPUT, &p, NULL, e, err);
}

static HRESULT get(DISPID id, VARIANT *args, UINT n, VARIANT *out)
{
    DISPPARAMS p = {args, NULL, n, 0};
    VariantInit(out);
    return IDispatch_Invoke(d, id, &IID_NULL, 0, DISPATCH_PROPERTYGET, &p, out, NULL, NULL);
}

static void there_and_back(const char *what, VARIANT *v)
{
    VARIANT got;
    HRESULT a = put(7, v, 1, NULL, NULL), b = get(7, NULL, 0, &got);
    char text[200];
    int same = 0;
    if (a == S_OK && b == S_OK && V_VT(&got) == V_VT(v)) {
        if (V_VT(v) == VT_BSTR)
            same = SysStringByteLen(V_BSTR(v)) == SysStringByteLen(V_BSTR(&got)) &&
                   !V_BSTR(v) == !V_BSTR(&got) &&
                   (!V_BSTR(v) || !memcmp(V_BSTR(v), V_BSTR(&got), SysStringByteLen(V_BSTR(v))));
        else if (V_VT(v) & VT_ARRAY) {
            SAFEARRAY *x = V_ARRAY(v), *y = V_ARRAY(&got);
            ULONG i, n = 1;
            same = x->cDims == y->cDims && x->cbElements == y->cbElements &&
                   !memcmp(x->rgsabound, y->rgsabound, x->cDims * sizeof *x->rgsabound);
            for (i = 0; i < x->cDims; i++)
                n *= x->rgsabound[i].cElements;
            for (i = 0; same && i < n; i++) {
                if (V_VT(v) == (VT_ARRAY | VT_BSTR)) {
                    BSTR p = ((BSTR *)x->pvData)[i], q = ((BSTR *)y->pvData)[i];
                    same = SysStringByteLen(p) == SysStringByteLen(q) &&
                           !memcmp(p ? p : L"", q ? q : L"", SysStringByteLen(p));
                } else if (V_VT(v) == (VT_ARRAY | VT_VARIANT)) {
                    VARIANT *p = (VARIANT *)x->pvData + i, *q = (VARIANT *)y->pvData + i;
                    same = V_VT(p) == V_VT(q) &&
                           (V_VT(p) == VT_BSTR ? !lstrcmpW(V_BSTR(p), V_BSTR(q))
                            : V_VT(p) == VT_I4 ? V_I4(p) == V_I4(q)
                                               : 1);
                } else
                    same = !memcmp((char *)x->pvData + i * x->cbElements,
                                   (char *)y->pvData + i * x->cbElements, x->cbElements);
            }
        } else if (V_VT(v) == VT_DECIMAL)
            same = !memcmp((char *)v + 2, (char *)&got + 2, 14);
        else {
            LONGLONG m = V_VT(v) == VT_EMPTY || V_VT(v) == VT_NULL ? 0 : -1;
            int w = V_VT(v) == VT_I1 || V_VT(v) == VT_UI1                         ? 1
                    : V_VT(v) == VT_I2 || V_VT(v) == VT_UI2 || V_VT(v) == VT_BOOL ? 2
                    : V_VT(v) == VT_I8 || V_VT(v) == VT_UI8 || V_VT(v) == VT_CY   ? 8
                                                                                  : 4;
            same = !m || !memcmp(&V_I8(v), &V_I8(&got), w);
        }
    }
    sprintf(text, same ? "%s" : "%s\tput %lx get %lx vt %x", what, a, b, V_VT(&got));
    ok(text, same);
    VariantClear(&got);
}

/* a proxy of an interface, by which the calls that follow go to an IPID */
static void *proxy(const IID *iid, const char *ipid)
{
    IPSFactoryBuffer *ps;
    IRpcProxyBuffer *pb;
    CLSID cl;
    UUID object;
    void *made = NULL;
    UuidFromStringA((unsigned char *)ipid, &object);
    RpcBindingSetObject(binding, &object);
    if (CoGetPSClsid(iid, &cl) ||
        CoGetClassObject(&cl, CLSCTX_INPROC_SERVER, NULL, &IID_IPSFactoryBuffer, (void **)&ps))
        return NULL;
    if (IPSFactoryBuffer_CreateProxy(ps, NULL, iid, &pb, &made))
        return NULL;
    IRpcProxyBuffer_Connect(pb, &channel.face);
    return made;
}

/* Left out are Wine's own forms: what returns texts, which Wine aligns to 8 bytes, and FUNCDESCs
   and VARDESCs, since Wine's IDL has no switch_type for the union of a TYPEDESC, so that its tag
   has 32 bits, and MS-OAUT's has 16. And Wine does not take references to objects of another
   machine. */
static void types(const char *type, const char *library, const char *comp)
{
    ITypeInfo *info = proxy(&IID_ITypeInfo, type), *of = NULL;
    ITypeLib *lib;
    ITypeComp *names;
    TYPEATTR *attributes = NULL;
    FUNCDESC *function = NULL;
    VARDESC *variable = NULL;
    TLIBATTR *about = NULL;
    TYPEKIND kind = TKIND_MAX;
    DESCKIND desc = DESCKIND_MAX;
    BINDPTR bound;
    HREFTYPE href = 0;
    INT flags = 9;
    HRESULT hr = ITypeInfo_GetTypeAttr(info, &attributes);
    ok("GetTypeAttr", hr == S_OK && attributes && attributes->cFuncs == 3 &&
                          attributes->cVars == 8 && attributes->typekind == TKIND_DISPATCH);
    hr = ITypeInfo_GetFuncDesc(info, 99, &function);
    ok("GetFuncDesc past the end", hr == TYPE_E_ELEMENTNOTFOUND);
    hr = ITypeInfo_GetVarDesc(info, 99, &variable);
    ok("GetVarDesc past the end", hr == TYPE_E_ELEMENTNOTFOUND);
    hr = ITypeInfo_GetRefTypeOfImplType(info, 0, &href);
    ok("GetRefTypeOfImplType of an interface", hr == TYPE_E_ELEMENTNOTFOUND);
    hr = ITypeInfo_GetImplTypeFlags(info, 0, &flags);
    ok("GetImplTypeFlags of an interface", hr == TYPE_E_ELEMENTNOTFOUND);
    lib = proxy(&IID_ITypeLib, library);
    ok("ITypeLib::GetTypeInfoCount", ITypeLib_GetTypeInfoCount(lib) == 2);
    hr = ITypeLib_GetTypeInfoType(lib, 1, &kind);
    ok("ITypeLib::GetTypeInfoType", hr == S_OK && kind == TKIND_COCLASS);
    hr = ITypeLib_GetTypeInfoType(lib, 2, &kind);
    ok("ITypeLib::GetTypeInfoType past the end", hr == TYPE_E_ELEMENTNOTFOUND);
    hr = ITypeLib_GetLibAttr(lib, &about);
    ok("ITypeLib::GetLibAttr", hr == S_OK && about &&
                                   about->guid.Data1 == (0x11223344 ^ 0x6F617574) &&
                                   about->syskind == SYS_WIN32 && !about->wMajorVerNum);
    names = proxy(&IID_ITypeComp, comp);
    hr = ITypeComp_Bind(names, L"Nothing", 0, 0, &of, &desc, &bound);
    ok("ITypeComp::Bind of none", hr == S_OK && desc == DESCKIND_NONE && !of);
    hr = ITypeComp_Bind(names, L"Clear", 0, INVOKE_PROPERTYPUT, &of, &desc, &bound);
    ok("ITypeComp::Bind in another way", hr == TYPE_E_TYPEMISMATCH);
}

int main(int argc, char **argv)
{
    RPC_WSTR s;
    WCHAR host[64], port[16];
    RPC_STATUS st;
    HRESULT hr;
    SEC_WINNT_AUTH_IDENTITY_W id = {
        L"joe", 3, L"OAUT", 4, L"Secret-1", 8, SEC_WINNT_AUTH_IDENTITY_UNICODE};
    VARIANT v, got, args[3];
    LPOLESTR names[2] = {L"Cell", L"kEY"};
    DISPID ids[2];
    UINT err = 99;
    EXCEPINFO e;
    int level = atoi(argv[4]);
    CoInitializeEx(NULL, COINIT_MULTITHREADED);
    MultiByteToWideChar(CP_ACP, 0, argv[1], -1, host, 64);
    MultiByteToWideChar(CP_ACP, 0, argv[2], -1, port, 16);
    st = RpcStringBindingComposeW(NULL, L"ncacn_ip_tcp", host, port, NULL, &s);
    st = RpcBindingFromStringBindingW(s, &binding);
    if (level > 1) {
        st = RpcBindingSetAuthInfoW(binding, (RPC_WSTR)L"host/OAUT", level, atoi(argv[3]), &id,
                                    RPC_C_AUTHZ_NONE);
    }
    d = proxy(&IID_IDispatch, argv[5]);
    hr = IDispatch_GetIDsOfNames(d, &IID_NULL, names, 2, 0, ids);
    ok("GetIDsOfNames", hr == S_OK && ids[0] == 9 && ids[1] == 1);
    UINT n = 9;
    hr = IDispatch_GetTypeInfoCount(d, &n);
    ok("GetTypeInfoCount", hr == S_OK && n == 1);
    V_VT(&v) = VT_I4;
    V_I4(&v) = 7;
    ok("put Count", put(1, &v, 1, NULL, NULL) == S_OK);
    ok("get Count", get(1, NULL, 0, &got) == S_OK && V_VT(&got) == VT_I4 && V_I4(&got) == 7);
    V_VT(&v) = VT_EMPTY;
    there_and_back("EMPTY", &v);
    V_VT(&v) = VT_NULL;
    there_and_back("NULL", &v);
    V_VT(&v) = VT_I1;
    V_I1(&v) = -5;
    there_and_back("I1", &v);
    V_VT(&v) = VT_UI1;
    there_and_back("UI1", &v);
    V_VT(&v) = VT_I2;
    V_I2(&v) = -300;
    there_and_back("I2", &v);
    V_VT(&v) = VT_UI2;
    there_and_back("UI2", &v);
    V_VT(&v) = VT_UI4;
    V_UI4(&v) = 4000000000u;
    there_and_back("UI4", &v);
    V_VT(&v) = VT_INT;
    there_and_back("INT", &v);
    V_VT(&v) = VT_UINT;
    there_and_back("UINT", &v);
    V_VT(&v) = VT_ERROR;
    there_and_back("ERROR", &v);
    V_VT(&v) = VT_I8;
    V_I8(&v) = -12345678901234LL;
    there_and_back("I8", &v);
    V_VT(&v) = VT_UI8;
    there_and_back("UI8", &v);
    V_VT(&v) = VT_CY;
    there_and_back("CY", &v);
    V_VT(&v) = VT_BOOL;
    V_BOOL(&v) = VARIANT_TRUE;
    there_and_back("BOOL", &v);
    memset(&v, 0, sizeof v);
    V_DECIMAL(&v).Hi32 = 5;
    V_DECIMAL(&v).Lo64 = 123456789012345ULL;
    V_DECIMAL(&v).scale = 3;
    V_DECIMAL(&v).sign = 0x80;
    V_VT(&v) = VT_DECIMAL;
    there_and_back("DECIMAL", &v);
    V_VT(&v) = VT_BSTR;
    V_BSTR(&v) = SysAllocString(L"tea and milk");
    there_and_back("BSTR", &v);
    V_BSTR(&v) = SysAllocString(L"");
    there_and_back("BSTR empty", &v);
    V_BSTR(&v) = NULL;
    there_and_back("BSTR null", &v);
    {
        SAFEARRAYBOUND b[2] = {{3, 5}, {2, -1}};
        SHORT *p;
        int i;
        SAFEARRAY *a = SafeArrayCreate(VT_I2, 2, b);
        SafeArrayAccessData(a, (void **)&p);
        for (i = 0; i < 6; i++)
            p[i] = i + 1;
        SafeArrayUnaccessData(a);
        V_VT(&v) = VT_ARRAY | VT_I2;
        V_ARRAY(&v) = a;
        there_and_back("array of I2, 2 dimensions", &v);
    }
    {
        SAFEARRAYBOUND b = {3, 0};
        LONGLONG *p;
        SAFEARRAY *a = SafeArrayCreate(VT_I8, 1, &b);
        SafeArrayAccessData(a, (void **)&p);
        p[0] = 1;
        p[1] = -2;
        p[2] = 1LL << 62;
        SafeArrayUnaccessData(a);
        V_VT(&v) = VT_ARRAY | VT_I8;
        V_ARRAY(&v) = a;
        there_and_back("array of I8", &v);
    }
    {
        SAFEARRAYBOUND b = {5, 0};
        BYTE *p;
        SAFEARRAY *a = SafeArrayCreate(VT_UI1, 1, &b);
        SafeArrayAccessData(a, (void **)&p);
        memcpy(p, "hello", 5);
        SafeArrayUnaccessData(a);
        V_VT(&v) = VT_ARRAY | VT_UI1;
        V_ARRAY(&v) = a;
        there_and_back("array of UI1", &v);
    }
    V_VT(&args[0]) = VT_BSTR;
    V_BSTR(&args[0]) = SysAllocString(L"tea");
    V_VT(&args[1]) = VT_BSTR;
    V_BSTR(&args[1]) = SysAllocString(L"k");
    V_VT(&args[2]) = VT_I4;
    V_I4(&args[2]) = 5;
    ok("put Cell", put(9, args, 3, NULL, NULL) == S_OK);
    hr = get(9, args + 1, 2, &got);
    ok("get Cell", hr == S_OK && V_VT(&got) == VT_BSTR && !lstrcmpW(V_BSTR(&got), L"tea"));
    {
        LONG row = 5;
        VARIANT key, ref[2];
        V_VT(&key) = VT_BSTR;
        V_BSTR(&key) = V_BSTR(&args[1]);
        V_VT(&ref[0]) = VT_BYREF | VT_VARIANT;
        V_VARIANTREF(&ref[0]) = &key;
        V_VT(&ref[1]) = VT_BYREF | VT_I4;
        V_I4REF(&ref[1]) = &row;
        hr = get(9, ref, 2, &got);
        ok("get Cell by references", hr == S_OK && V_VT(&got) == VT_BSTR &&
                                         !lstrcmpW(V_BSTR(&got), L"tea") && row == 5 &&
                                         V_VT(&key) == VT_BSTR && !lstrcmpW(V_BSTR(&key), L"k"));
    }
    V_VT(&v) = VT_BSTR;
    V_BSTR(&v) = SysAllocString(L"x");
    memset(&e, 0, sizeof e);
    hr = put(1, &v, 1, &e, &err);
    ok("a put that is refused", hr == DISP_E_TYPEMISMATCH && err == 0);
    ok("its description",
       e.bstrDescription &&
           wcsstr(e.bstrDescription, L"the new value is declared long and given as BSTR"));
    V_VT(&v) = VT_R8;
    V_R8(&v) = 1.5;
    hr = put(1, &v, 1, NULL, &err);
    ok("VT_R8 is refused", hr == DISP_E_BADVARTYPE && err == 0);
    hr = get(99, NULL, 0, &got);
    ok("no such member", hr == DISP_E_MEMBERNOTFOUND);
    types(argv[6], argv[7], argv[8]);
    return fails != 0;
}
