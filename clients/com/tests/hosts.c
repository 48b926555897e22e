/* What hosts do beside late binding: they load the registered type library and call by its DISPIDs,
   on an interface of their own; they have several apartments; they unload the DLL. The classes are
   those of tests/demo.idl, registered with Script = 0.

       hosts early         with the type library registered
       hosts written       with the one that the DLL has written, as it was registered, and its hub
       hosts plain         without one
       hosts apartments    with the type library registered, by which the first interface is
   marshalled hosts waits         one apartment waits for a change, which the other makes hosts
   turns FILE    two threads wait with one hub: "ready" says that the second one has, and that a
   change may come hosts calls COUNT   makes so many calls, and prints what the process has of
   handles and bytes between them hosts unloads FILE  puts a number once there is such a file, while
   the server is stopped: "sent" says that it may go on hosts keeps FILE    keeps a DISPID, and puts
   by it once there is such a file and a server with another library */
#define COBJMACROS
#include <windows.h>
#include <oleauto.h>
#include <ocidl.h>
#include <psapi.h>

#include <stdio.h>
#include <stdlib.h>
#include <string.h>

static const GUID DEMO = {
    0x11223344, 0x5566, 0x7788, {0x99, 0xAA, 0xBB, 0xCC, 0xDD, 0xEE, 0xFF, 0x01}};
static const GUID IID_DItem = {
    0x11223344, 0x5566, 0x7788, {0x99, 0xAA, 0xBB, 0xCC, 0xDD, 0xEE, 0xFF, 0x02}};
static const GUID IID_DStock = {
    0x11223344, 0x5566, 0x7788, {0x99, 0xAA, 0xBB, 0xCC, 0xDD, 0xEE, 0xFF, 0x04}};
static CLSID class;

static void tell(BOOL well, const char *name, HRESULT code)
{
    if (well)
        printf("ok   %s\n", name);
    else
        printf("BAD  %s: 0x%08lx\n", name, (unsigned long)code);
    fflush(stdout);
}

static HRESULT create(REFIID iid, IDispatch **made)
{
    *made = NULL;
    return CoCreateInstance(&class, NULL, CLSCTX_INPROC_SERVER, iid, (void **)made);
}

static HRESULT put(IDispatch *object, DISPID id, VARTYPE type, LONGLONG number)
{
    DISPID name = DISPID_PROPERTYPUT;
    VARIANT value;
    DISPPARAMS given = {&value, &name, 1, 1};

    VariantInit(&value);
    V_VT(&value) = type;
    V_I8(&value) = number;
    return IDispatch_Invoke(object, id, &IID_NULL, 0, DISPATCH_PROPERTYPUT, &given, NULL, NULL,
                            NULL);
}

/* What a property holds, where it is of this type; else -1. */
static LONGLONG get(IDispatch *object, DISPID id, VARTYPE type)
{
    DISPPARAMS none = {NULL, NULL, 0, 0};
    VARIANT value;
    HRESULT code;

    code = IDispatch_Invoke(object, id, &IID_NULL, 0, DISPATCH_PROPERTYGET, &none, &value, NULL,
                            NULL);
    if (code != S_OK || V_VT(&value) != type)
        return -1;
    return type == VT_I4 ? V_I4(&value) : V_I8(&value);
}

static DISPID id_in(ITypeInfo *type, const WCHAR *name)
{
    WCHAR copy[32];
    LPOLESTR names = lstrcpynW(copy, name, 32);
    MEMBERID id = DISPID_UNKNOWN;

    ITypeInfo_GetIDsOfNames(type, &names, 1, &id);
    return id;
}

/* The name, GUID, and numbers of members of a type, as one line. */
static const char *line_of(ITypeInfo *type)
{
    static char line[160];
    TYPEATTR *attributes;
    FUNCDESC *function;
    BSTR name = NULL;
    UINT functions = 0;

    line[0] = 0;
    if (!type || FAILED(ITypeInfo_GetTypeAttr(type, &attributes)))
        return line;
    ITypeInfo_GetDocumentation(type, MEMBERID_NIL, &name, NULL, NULL, NULL);
    /* Wine counts IDispatch's in cFuncs too */
    while (SUCCEEDED(ITypeInfo_GetFuncDesc(type, functions, &function))) {
        ITypeInfo_ReleaseFuncDesc(type, function);
        functions++;
    }
    sprintf(line, "%ls %x kind %d vars %u funcs %u", name ? name : L"", attributes->guid.Data4[7],
            attributes->typekind, attributes->cVars, functions);
    SysFreeString(name);
    ITypeInfo_ReleaseTypeAttr(type, attributes);
    return line;
}

/* The interfaces of an object, by its pointers. */
static void interfaces(void)
{
    IDispatch *item, *own, *stock, *other;
    IUnknown *one = NULL, *two = NULL;
    HRESULT code;

    code = create(&IID_DItem, &item);
    tell(code == S_OK, "an object is made with its own interface", code);
    if (code != S_OK)
        return;
    code = IDispatch_QueryInterface(item, &IID_DItem, (void **)&own);
    tell(code == S_OK && own == item, "the default interface", code);
    code = IDispatch_QueryInterface(item, &IID_DStock, (void **)&stock);
    tell(code == S_OK && stock != item, "the second interface", code);
    tell(put(item, 1, VT_I4, 7) == S_OK && put(stock, 1, VT_CY, 25000) == S_OK,
         "puts of the member 1 of both", S_OK);
    tell(get(item, 1, VT_I4) == 7 && get(stock, 1, VT_CY) == 25000, "are two properties", S_OK);
    IDispatch_QueryInterface(item, &IID_IUnknown, (void **)&one);
    IDispatch_QueryInterface(stock, &IID_IUnknown, (void **)&two);
    tell(one && one == two, "one object has one identity", S_OK);
    code = IDispatch_QueryInterface(stock, &IID_DItem, (void **)&other);
    tell(code == S_OK && other == item, "back from the second to the first", code);
    if (code == S_OK)
        IDispatch_Release(other);
    code = IDispatch_QueryInterface(stock, &IID_DStock, (void **)&other);
    tell(code == S_OK && other == stock, "asked twice it is the same", code);
    if (code == S_OK)
        IDispatch_Release(other);
    IUnknown_Release(one);
    IUnknown_Release(two);
    IDispatch_Release(own);
    IDispatch_Release(item); /* the second interface keeps the object */
    tell(get(stock, 1, VT_CY) == 25000, "the second interface outlives the first one's pointer",
         S_OK);
    IDispatch_Release(stock);
    code = create(&IID_DStock, &stock);
    tell(code == S_OK && get(stock, 1, VT_CY) == 0, "an object is made with its second interface",
         code);
    if (code == S_OK)
        IDispatch_Release(stock);
    code = create(&DEMO, &stock);
    tell(code == E_NOINTERFACE && !stock, "none with an interface that it does not have", code);
}

/* What an object says of its types. `wanted` is of its own interface. */
static void types(const char *wanted)
{
    IProvideClassInfo *information = NULL;
    ITypeInfo *type = NULL, *its = NULL;
    IDispatch *item = NULL, *stock = NULL;
    HREFTYPE reference;
    HRESULT code = create(&IID_IDispatch, &item);
    UINT count = 0;

    if (code == S_OK)
        code = IDispatch_GetTypeInfoCount(item, &count);
    if (code == S_OK)
        code = IDispatch_GetTypeInfo(item, 0, 0, &type);
    tell(code == S_OK && count == 1 && !strcmp(line_of(type), wanted), "GetTypeInfo", code);
    if (code != S_OK || strcmp(line_of(type), wanted))
        printf("     %s\n", line_of(type));
    tell(type && id_in(type, L"Any") == 7 && id_in(type, L"Large") == 13, "DISPIDs by it", code);
    code = IDispatch_QueryInterface(item, &IID_IProvideClassInfo, (void **)&information);
    if (code == S_OK) {
        ITypeInfo_Release(type);
        type = NULL;
        code = IProvideClassInfo_GetClassInfo(information, &type);
    }
    tell(code == S_OK && !strcmp(line_of(type), "Item 3 kind 5 vars 0 funcs 0"), "GetClassInfo",
         code);
    if (code == S_OK)
        code = ITypeInfo_GetRefTypeOfImplType(type, 0, &reference);
    if (code == S_OK)
        code = ITypeInfo_GetRefTypeInfo(type, reference, &its);
    tell(code == S_OK && !strcmp(line_of(its), "DItem 2 kind 4 vars 8 funcs 14"),
         "its default interface", code);
    if (code != S_OK || strcmp(line_of(its), "DItem 2 kind 4 vars 8 funcs 14"))
        printf("     %s\n", line_of(its));
    if (its)
        ITypeInfo_Release(its);
    if (type)
        ITypeInfo_Release(type);
    type = NULL;
    code = IDispatch_QueryInterface(item, &IID_DStock, (void **)&stock);
    if (code == S_OK)
        code = IDispatch_GetTypeInfo(stock, 0, 0, &type);
    tell(code == S_OK && !strcmp(line_of(type), "DStock 4 kind 4 vars 2 funcs 4"),
         "GetTypeInfo of the second interface", code);
    if (type)
        ITypeInfo_Release(type);
    if (stock)
        IDispatch_Release(stock);
    if (information)
        IProvideClassInfo_Release(information);
    if (item)
        IDispatch_Release(item);
}

/* As an editor and what it compiles: DISPIDs are the registered library's. */
static void registered(REFGUID guid)
{
    ITypeLib *library = NULL;
    ITypeInfo *own = NULL, *second = NULL;
    IDispatch *item = NULL, *stock = NULL;
    HRESULT code = LoadRegTypeLib(guid, 1, 0, 0, &library);

    tell(code == S_OK, "LoadRegTypeLib", code);
    if (code != S_OK)
        return;
    code = ITypeLib_GetTypeInfoOfGuid(library, &IID_DItem, &own);
    if (code == S_OK)
        code = ITypeLib_GetTypeInfoOfGuid(library, &IID_DStock, &second);
    if (code == S_OK)
        code = create(&IID_DItem, &item);
    if (code == S_OK)
        code = IDispatch_QueryInterface(item, &IID_DStock, (void **)&stock);
    if (code == S_OK)
        code = put(item, id_in(own, L"Count"), VT_I4, 12);
    if (code == S_OK)
        code = put(stock, id_in(second, L"Price"), VT_CY, 199900);
    tell(code == S_OK && get(item, id_in(own, L"Count"), VT_I4) == 12 &&
             get(stock, id_in(second, L"Price"), VT_CY) == 199900,
         "calls by its DISPIDs", code);
    code = LoadRegTypeLib(guid, 1, 1, 0, &library);
    tell(code != S_OK, "another version is not registered", code);
    if (stock)
        IDispatch_Release(stock);
    if (item)
        IDispatch_Release(item);
    if (own)
        ITypeInfo_Release(own);
    if (second)
        ITypeInfo_Release(second);
}

/* ---- the hub's types */

/* The type library that a class names in the registry. */
static HRESULT library_of_class(REFCLSID clsid, GUID *library)
{
    WCHAR path[80] = L"CLSID\\", text[40];
    LONG size = sizeof text;

    StringFromGUID2(clsid, path + 6, 40);
    lstrcatW(path, L"\\TypeLib");
    if (RegQueryValueW(HKEY_CLASSES_ROOT, path, text, &size))
        return REGDB_E_KEYMISSING;
    return CLSIDFromString(text, library);
}

/* Prints a member as an editor shows it: its name, DISPID, kind, and its parameters by their
 * names. */
static void print_members(const char *title, ITypeInfo *type)
{
    FUNCDESC *function;
    UINT i, k, count;
    BSTR names[8];

    for (i = 0; type && SUCCEEDED(ITypeInfo_GetFuncDesc(type, i, &function)); i++) {
        if ((function->memid & ~0x1ffff) == 0x60000000) {
            ITypeInfo_ReleaseFuncDesc(type, function);
            continue; /* IDispatch's own */
        }
        count = 0;
        ITypeInfo_GetNames(type, function->memid, names, 8, &count);
        printf("%s %d %d:", title, (int)function->memid, function->invkind);
        for (k = 0; k < count; k++) {
            printf(" %ls", names[k]);
            SysFreeString(names[k]);
        }
        printf(function->cParamsOpt < 0 ? " ..\n" : "\n");
        ITypeInfo_ReleaseFuncDesc(type, function);
    }
}

/* The hub as the written library has it, and as it tells itself. */
static void hub_types(REFGUID guid)
{
    ITypeInfo *type = NULL, *face = NULL, *told = NULL;
    IDispatch *hub = NULL, *own = NULL, *items = NULL;
    DISPPARAMS arguments = {NULL, NULL, 1, 0};
    VARIANT word, found;
    ITypeLib *library = NULL;
    TYPEATTR *attributes;
    HREFTYPE reference;
    CLSID clsid;
    HRESULT code = CLSIDFromProgID(L"Demo.Store", &clsid);

    VariantInit(&found);
    if (code == S_OK)
        code = LoadRegTypeLib(guid, 1, 0, 0, &library);
    if (code == S_OK)
        code = ITypeLib_GetTypeInfoOfGuid(library, &clsid, &type);
    if (code == S_OK)
        code = ITypeInfo_GetRefTypeOfImplType(type, 0, &reference);
    if (code == S_OK)
        code = ITypeInfo_GetRefTypeInfo(type, reference, &face);
    tell(code == S_OK && !strcmp(line_of(type), "Store 2 kind 5 vars 0 funcs 0"), "its class",
         code);
    print_members("written", face);
    if (code == S_OK)
        code = CoCreateInstance(&clsid, NULL, CLSCTX_INPROC_SERVER, &IID_IDispatch, (void **)&hub);
    if (code == S_OK && (code = ITypeInfo_GetTypeAttr(face, &attributes)) == S_OK) {
        code = IDispatch_QueryInterface(hub, &attributes->guid, (void **)&own);
        ITypeInfo_ReleaseTypeAttr(face, attributes);
    }
    tell(code == S_OK && own == hub, "its own interface", code);
    if (hub)
        code = IDispatch_GetTypeInfo(hub, 0, 0, &told);
    tell(code == S_OK, "GetTypeInfo of the hub", code);
    print_members("told", told);
    VariantInit(&word);
    V_VT(&word) = VT_BSTR;
    V_BSTR(&word) = SysAllocString(L"Item");
    arguments.rgvarg = &word;
    if (code == S_OK)
        code = IDispatch_Invoke(hub, id_in(face, L"Objects"), &IID_NULL, 0, DISPATCH_METHOD,
                                &arguments, &found, NULL, NULL);
    items = V_VT(&found) == VT_DISPATCH ? V_DISPATCH(&found) : NULL;
    if (code == S_OK)
        code = items ? IDispatch_GetTypeInfo(items, 0, 0, &told) : E_FAIL;
    print_members("collection", code == S_OK ? told : NULL);
    tell(code == S_OK && id_in(told, L"Count") == 2 && id_in(face, L"Count") == 2,
         "a collection's types", code);
    if (code == S_OK && (code = ITypeInfo_GetTypeAttr(told, &attributes)) == S_OK) {
        code = IDispatch_QueryInterface(items, &attributes->guid, (void **)&own);
        ITypeInfo_ReleaseTypeAttr(told, attributes);
    }
    tell(code == S_OK && own == items, "its own interface, of a collection", code);
    VariantClear(&word);
}

static void written(void)
{
    CLSID clsid;
    GUID library;
    HRESULT code = CLSIDFromProgID(L"Demo.Store", &clsid);

    if (code == S_OK)
        code = library_of_class(&clsid, &library);
    tell(code == S_OK, "the hub's class names a type library", code);
    if (code != S_OK)
        return;
    registered(&library);
    hub_types(&library);
}

/* ---- apartments */

/* What the hub's InterfaceOf gives: the object as its second interface, for hosts that call by
 * IDispatch. */
static HRESULT second_interface(IDispatch *item, IDispatch **found)
{
    VARIANT given[2], told;
    DISPPARAMS arguments = {given, NULL, 2, 0};
    IDispatch *hub;
    CLSID clsid;
    HRESULT code = CLSIDFromProgID(L"Demo.Store", &clsid);

    *found = NULL;
    if (code == S_OK)
        code = CoCreateInstance(&clsid, NULL, CLSCTX_INPROC_SERVER, &IID_IDispatch, (void **)&hub);
    if (code != S_OK)
        return code;
    VariantInit(&given[0]);
    VariantInit(&given[1]);
    V_VT(&given[0]) = VT_BSTR;
    V_BSTR(&given[0]) = SysAllocString(L"DStock");
    V_VT(&given[1]) = VT_DISPATCH;
    V_DISPATCH(&given[1]) = item;
    code = IDispatch_Invoke(hub, 11, &IID_NULL, 0, DISPATCH_METHOD, &arguments, &told, NULL, NULL);
    if (code == S_OK)
        *found = V_DISPATCH(&told);
    VariantClear(&given[0]);
    IDispatch_Release(hub);
    return code;
}

typedef struct Passed {
    IStream *streams[2];
    HRESULT code, second;
    LONGLONG numbers[2];
} Passed;

/* Another apartment's calls, through what was marshalled to it. */
static DWORD WINAPI other_apartment(void *context)
{
    Passed *passed = context;
    IDispatch *item, *stock, *wrong;

    CoInitialize(NULL);
    passed->code = CoGetInterfaceAndReleaseStream(passed->streams[0], &IID_DItem, (void **)&item);
    if (passed->code == S_OK)
        passed->code = CoGetInterfaceAndReleaseStream(passed->streams[1], &IID_IDispatch,
                                                      (void **)&stock);
    if (passed->code == S_OK) {
        passed->second = IDispatch_QueryInterface(item, &IID_DStock, (void **)&wrong);
        passed->code = put(item, 1, VT_I4, 40);
        if (passed->code == S_OK)
            passed->code = put(stock, 1, VT_CY, 50000);
        passed->numbers[0] = get(item, 1, VT_I4);
        passed->numbers[1] = get(stock, 1, VT_CY);
        IDispatch_Release(stock);
        IDispatch_Release(item);
    }
    CoUninitialize();
    return 0;
}

/* Waits as an apartment does: calls from others come as messages. */
static void wait_for(HANDLE thread)
{
    MSG message;

    while (MsgWaitForMultipleObjects(1, &thread, FALSE, INFINITE, QS_ALLINPUT) != WAIT_OBJECT_0)
        while (PeekMessageW(&message, NULL, 0, 0, PM_REMOVE))
            DispatchMessageW(&message);
    CloseHandle(thread);
}

/* An apartment with an object of its own, beside the other. */
static DWORD WINAPI own_object(void *context)
{
    HRESULT *code = context;
    IDispatch *item;
    LONG i;

    CoInitialize(NULL);
    *code = create(&IID_IDispatch, &item);
    for (i = 1; i <= 40 && *code == S_OK; i++)
        if ((*code = put(item, 1, VT_I4, i)) == S_OK && get(item, 1, VT_I4) != i)
            *code = S_FALSE;
    if (item)
        IDispatch_Release(item);
    CoUninitialize();
    return 0;
}

static void apartments(void)
{
    IDispatch *item, *stock;
    HANDLE threads[2];
    HRESULT codes[2];
    Passed passed;
    HRESULT code = create(&IID_IDispatch, &item);
    int i;

    tell(code == S_OK, "an object is made", code);
    if (code != S_OK)
        return;
    code = second_interface(item, &stock);
    tell(code == S_OK, "InterfaceOf", code);
    if (code != S_OK)
        return;
    memset(&passed, 0, sizeof passed);
    code = CoMarshalInterThreadInterfaceInStream(&IID_DStock, (IUnknown *)item, &passed.streams[0]);
    tell(FAILED(code), "a second interface is not marshalled", code);
    code = CoMarshalInterThreadInterfaceInStream(&IID_DItem, (IUnknown *)item, &passed.streams[0]);
    if (code == S_OK)
        code = CoMarshalInterThreadInterfaceInStream(&IID_IDispatch, (IUnknown *)stock,
                                                     &passed.streams[1]);
    tell(code == S_OK, "the first one is, and what InterfaceOf gives", code);
    if (code != S_OK)
        return;
    wait_for(CreateThread(NULL, 0, other_apartment, &passed, 0, NULL));
    tell(passed.code == S_OK && passed.numbers[0] == 40 && passed.numbers[1] == 50000,
         "calls from another apartment", passed.code);
    tell(FAILED(passed.second), "which has no second interface", passed.second);
    tell(get(item, 1, VT_I4) == 40 && get(stock, 1, VT_CY) == 50000, "are there in its own", S_OK);
    for (i = 0; i < 2; i++)
        threads[i] = CreateThread(NULL, 0, own_object, &codes[i], 0, NULL);
    for (i = 0; i < 2; i++)
        wait_for(threads[i]);
    tell(codes[0] == S_OK && codes[1] == S_OK, "two apartments over one connection", codes[0]);
    IDispatch_Release(stock);
    IDispatch_Release(item);
}

/* ---- waits for a change */

typedef struct Waited {
    HANDLE is_begun;
    HRESULT code;
    VARIANT first, second;
} Waited;

static HRESULT wait_for_change(IDispatch *hub, LONG milliseconds, VARIANT *told)
{
    VARIANT given;
    DISPPARAMS arguments = {&given, NULL, 1, 0};

    VariantInit(&given);
    V_VT(&given) = VT_I4;
    V_I4(&given) = milliseconds;
    return IDispatch_Invoke(hub, 13, &IID_NULL, 0, DISPATCH_METHOD, &arguments, told, NULL, NULL);
}

static DWORD WINAPI waiting_apartment(void *context)
{
    Waited *waited = context;
    IDispatch *hub = NULL;
    CLSID clsid;

    CoInitialize(NULL);
    waited->code = CLSIDFromProgID(L"Demo.Store", &clsid);
    if (waited->code == S_OK)
        waited->code = CoCreateInstance(&clsid, NULL, CLSCTX_INPROC_SERVER, &IID_IDispatch,
                                        (void **)&hub);
    if (waited->code == S_OK)
        waited->code = wait_for_change(hub, 600000, &waited->first);
    SetEvent(waited->is_begun);
    if (waited->code == S_OK)
        waited->code = wait_for_change(hub, 600000, &waited->second);
    if (hub)
        IDispatch_Release(hub);
    CoUninitialize();
    return 0;
}

/* A wait that kept other calls waiting would last until its end. */
static void waits(void)
{
    DISPPARAMS arguments;
    VARIANT given, number;
    IDispatch *item, *hub;
    Waited waited;
    HANDLE thread;
    CLSID clsid;
    HRESULT code = create(&IID_IDispatch, &item);

    tell(code == S_OK, "an object is made", code);
    if (code != S_OK || CLSIDFromProgID(L"Demo.Store", &clsid) != S_OK ||
        CoCreateInstance(&clsid, NULL, CLSCTX_INPROC_SERVER, &IID_IDispatch, (void **)&hub) != S_OK)
        return;
    V_VT(&given) = VT_DISPATCH;
    V_DISPATCH(&given) = item;
    memset(&arguments, 0, sizeof arguments);
    arguments.cArgs = 1;
    arguments.rgvarg = &given;
    code = IDispatch_Invoke(hub, 4, &IID_NULL, 0, DISPATCH_METHOD, &arguments, &number, NULL, NULL);
    tell(code == S_OK && V_VT(&number) == VT_I4, "its number", code);
    memset(&waited, 0, sizeof waited);
    waited.is_begun = CreateEventW(NULL, TRUE, FALSE, NULL);
    thread = CreateThread(NULL, 0, waiting_apartment, &waited, 0, NULL);
    WaitForSingleObject(waited.is_begun, INFINITE);
    code = put(item, 1, VT_I4, 41);
    tell(code == S_OK, "a put while another apartment waits", code);
    wait_for(thread);
    tell(waited.code == S_OK && V_VT(&waited.first) == VT_I4 && V_I4(&waited.first) == -1,
         "the first wait begins", waited.code);
    tell(waited.code == S_OK && V_VT(&waited.second) == VT_I4 &&
             V_I4(&waited.second) == V_I4(&number),
         "the second one gives the object's number", waited.code);
    IDispatch_Release(hub);
    IDispatch_Release(item);
}

typedef struct Turn {
    IDispatch *hub;
    volatile LONG has_ended;
    HRESULT code;
    VARIANT told;
} Turn;

static DWORD WINAPI first_turn(void *context)
{
    Turn *turn = context;

    turn->code = wait_for_change(turn->hub, 600000, &turn->told);
    InterlockedExchange(&turn->has_ended, 1);
    return 0;
}

static void turns(void)
{
    BOOL well = TRUE;
    VARIANT told;
    HANDLE thread;
    CLSID clsid;
    HRESULT code = CLSIDFromProgID(L"Demo.Store", &clsid);
    Turn turn;
    int i;

    memset(&turn, 0, sizeof turn);
    if (code == S_OK)
        code = CoCreateInstance(&clsid, NULL, CLSCTX_INPROC_SERVER, &IID_IDispatch,
                                (void **)&turn.hub);
    if (code == S_OK)
        code = wait_for_change(turn.hub, 600000, &told);
    tell(code == S_OK && V_VT(&told) == VT_I4 && V_I4(&told) == -1, "a wait begins", code);
    if (code != S_OK)
        return;
    thread = CreateThread(NULL, 0, first_turn, &turn, 0, NULL);
    for (i = 0; i < 100 && well; i++) { /* the first one is among them soon */
        code = wait_for_change(turn.hub, 20, &told);
        well = code == S_OK && V_VT(&told) == VT_I4 && !V_I4(&told) && !turn.has_ended;
    }
    tell(well, "a second one ends in its own time", code);
    puts("ready");
    fflush(stdout);
    wait_for(thread);
    tell(turn.code == S_OK && V_VT(&turn.told) == VT_I4 && V_I4(&turn.told) == 3,
         "the first one goes on", turn.code);
    IDispatch_Release(turn.hub);
}

/* ---- unloading */

static volatile LONG is_sent, is_answered;

static DWORD WINAPI late_put(void *context)
{
    IDispatch *item = context;

    InterlockedExchange(&is_sent, 1);
    InterlockedExchange(&is_answered, put(item, 1, VT_I4, 77) == S_OK ? 1 : 2);
    return 0;
}

static void unloads(const char *file)
{
    HRESULT(WINAPI * can_unload)(void);
    IDispatch *item = NULL;
    HMODULE dll;
    HANDLE thread;
    HRESULT code = create(&IID_IDispatch, &item);
    int i;

    dll = GetModuleHandleA("oautcom.dll");
    tell(code == S_OK && dll, "the DLL is loaded", code);
    if (code != S_OK || !dll)
        return;
    can_unload = (HRESULT(WINAPI *)(void))(void *)GetProcAddress(dll, "DllCanUnloadNow");
    puts("ready");
    fflush(stdout);
    while (GetFileAttributesA(file) == INVALID_FILE_ATTRIBUTES)
        Sleep(20);
    thread = CreateThread(NULL, 0, late_put, item, 0, NULL);
    while (!is_sent)
        Sleep(10);
    Sleep(300);
    tell(!is_answered, "a reply is out", S_OK);
    for (i = 0; i < 3; i++)
        CoFreeUnusedLibrariesEx(0, 0);
    tell(GetModuleHandleA("oautcom.dll") && can_unload() == S_FALSE,
         "the DLL stays while a reply is out", S_OK);
    puts("sent");
    fflush(stdout);
    WaitForSingleObject(thread, INFINITE);
    CloseHandle(thread);
    tell(is_answered == 1, "the put is done", S_OK);
    tell(get(item, 1, VT_I4) == 77, "and there", S_OK);
    IDispatch_Release(item);
    tell(can_unload() == S_OK, "it may go once all is released", S_OK);
    for (i = 0; i < 3; i++)
        CoFreeUnusedLibrariesEx(0, 0);
    tell(!GetModuleHandleA("oautcom.dll"), "it goes", S_OK);
    code = create(&IID_IDispatch, &item);
    tell(code == S_OK && put(item, 1, VT_I4, 5) == S_OK && get(item, 1, VT_I4) == 5,
         "and comes back", code);
    if (item)
        IDispatch_Release(item);
}

/* ---- many calls */

#define CALLS_OF_A_ROUND 20

/* The object with the number 1. */
static IDispatch *first_object(void)
{
    IDispatch *hub = NULL;
    VARIANT number, object;
    DISPPARAMS given = {&number, NULL, 1, 0};
    CLSID clsid;

    V_VT(&number) = VT_I4;
    V_I4(&number) = 1;
    VariantInit(&object);
    if (FAILED(CLSIDFromProgID(L"Demo.Store", &clsid)) ||
        FAILED(CoCreateInstance(&clsid, NULL, CLSCTX_INPROC_SERVER, &IID_IDispatch, (void **)&hub)))
        return NULL;
    IDispatch_Invoke(hub, 1, &IID_NULL, 0, DISPATCH_METHOD, &given, &object, NULL, NULL);
    IDispatch_Release(hub);
    return V_VT(&object) == VT_DISPATCH ? V_DISPATCH(&object) : NULL;
}

static void keeps(const char *file)
{
    IDispatch *item = first_object(), *again = NULL;
    WCHAR name[] = L"Count";
    LPOLESTR names = name;
    DISPID id = DISPID_UNKNOWN, other = DISPID_UNKNOWN;
    HRESULT code = E_FAIL;

    if (item)
        code = IDispatch_GetIDsOfNames(item, &IID_NULL, &names, 1, 0, &id);
    tell(code == S_OK && id == 1, "the DISPID of a member", code);
    if (code != S_OK)
        return;
    tell(put(item, id, VT_I4, 41) == S_OK, "a put by it", S_OK);
    puts("ready");
    fflush(stdout);
    while (GetFileAttributesA(file) == INVALID_FILE_ATTRIBUTES)
        Sleep(20);
    code = put(item, id, VT_I4, 42);
    tell(code == (HRESULT)0x800706B5, "with another library the put is refused", code);
    tell(get(item, id, VT_I4) == -1, "and a get", S_OK);
    if ((again = first_object()))
        code = IDispatch_GetIDsOfNames(again, &IID_NULL, &names, 1, 0, &other);
    tell(again && code == S_OK && other == 17, "the object that is made again has the other DISPID",
         code);
    tell(again && put(again, other, VT_I4, 43) == S_OK && get(again, other, VT_I4) == 43,
         "and may be called", S_OK);
    code = put(item, id, VT_I4, 44);
    tell(code == (HRESULT)0x800706B5, "the earlier one is refused as before", code);
    IDispatch_Release(item);
    if (again)
        IDispatch_Release(again);
}

static VARIANT text_of(const WCHAR *text)
{
    VARIANT made;

    VariantInit(&made);
    V_VT(&made) = VT_BSTR;
    V_BSTR(&made) = SysAllocString(text);
    return made;
}

static VARIANT number_of(LONG number)
{
    VARIANT made;

    VariantInit(&made);
    V_VT(&made) = VT_I4;
    V_I4(&made) = number;
    return made;
}

/* A call whose arguments and result are freed; whether it ended with this code, and if it was
 * refused with words. */
static BOOL called(IDispatch *object, DISPID id, WORD flags, VARIANT *values, UINT count,
                   HRESULT wanted)
{
    DISPID name = DISPID_PROPERTYPUT;
    DISPPARAMS given = {values, &name, count, flags == DISPATCH_PROPERTYPUT ? 1 : 0};
    EXCEPINFO told;
    VARIANT result;
    HRESULT code;
    UINT i;

    memset(&told, 0, sizeof told);
    VariantInit(&result);
    code = IDispatch_Invoke(object, id, &IID_NULL, 0, flags, &given, &result, &told, NULL);
    VariantClear(&result);
    for (i = 0; i < count; i++)
        VariantClear(&values[i]);
    if (code == DISP_E_EXCEPTION) {
        code = told.bstrDescription && *told.bstrDescription ? told.scode : E_FAIL;
        SysFreeString(told.bstrSource);
        SysFreeString(told.bstrDescription);
    }
    return code == wanted;
}

static VARIANT array_of(LONG number)
{
    VARIANT made;
    SHORT *cells;
    LONG i;

    VariantInit(&made);
    V_ARRAY(&made) = SafeArrayCreateVector(VT_I2, 0, 100);
    V_VT(&made) = VT_ARRAY | VT_I2;
    if (V_ARRAY(&made) && SUCCEEDED(SafeArrayAccessData(V_ARRAY(&made), (void **)&cells))) {
        for (i = 0; i < 100; i++)
            cells[i] = (SHORT)(number + i);
        SafeArrayUnaccessData(V_ARRAY(&made));
    }
    return made;
}

/* Calls of each kind: how many went as they should. An object is made and released, another one is
 * found by its number. */
static int round_of_calls(IDispatch *hub, IDispatch *item, LONG round)
{
    static const WCHAR *const names[] = {L"Name", L"nothing"};
    WCHAR text[400];
    IDispatch *made, *stock;
    VARIANT values[4];
    ITypeInfo *type;
    int well = 0, i;
    DISPID id;

    for (i = 0; i < 399; i++)
        text[i] = (WCHAR)(L'a' + (round + i) % 26);
    text[399] = 0;
    values[0] = number_of(round);
    well += called(item, 1, DISPATCH_PROPERTYPUT, values, 1, S_OK);
    well += called(item, 1, DISPATCH_PROPERTYGET, values, 0, S_OK);
    values[0] = text_of(text);
    well += called(item, 2, DISPATCH_PROPERTYPUT, values, 1, S_OK);
    well += called(item, 2, DISPATCH_PROPERTYGET, values, 0, S_OK);
    values[0] = array_of(round);
    well += called(item, 8, DISPATCH_PROPERTYPUT, values, 1, S_OK);
    well += called(item, 8, DISPATCH_PROPERTYGET, values, 0, S_OK);
    values[0] = number_of(7);
    well += called(item, 8, DISPATCH_PROPERTYGET, values, 1, S_OK);
    values[0] = text_of(text);
    values[1] = text_of(L"key");
    values[2] = number_of(round % 50);
    well += called(item, 9, DISPATCH_PROPERTYPUT, values, 3, S_OK);
    values[0] = text_of(L"key");
    values[1] = number_of(round % 50);
    well += called(item, 9, DISPATCH_PROPERTYGET, values, 2, S_OK);
    values[0] = text_of(text);
    well += called(item, 1, DISPATCH_PROPERTYPUT, values, 1, DISP_E_TYPEMISMATCH);
    well += called(item, 6, DISPATCH_PROPERTYPUT, values, 1, DISP_E_MEMBERNOTFOUND);
    for (i = 0; i < 2; i++) {
        LPOLESTR name = (LPOLESTR)names[i];

        well += IDispatch_GetIDsOfNames(item, &IID_NULL, &name, 1, 0, &id) ==
                (i ? DISP_E_UNKNOWNNAME : S_OK);
    }
    well += called(hub, 2, DISPATCH_PROPERTYGET, values, 0, S_OK);
    values[0] = number_of(1);
    well += called(hub, 1, DISPATCH_METHOD, values, 1, S_OK);
    values[0] = number_of(1);
    well += called(hub, 0, DISPATCH_PROPERTYGET, values, 1, S_OK);
    well += called(hub, 3, DISPATCH_PROPERTYGET, values, 0, S_OK);
    if (create(&IID_IDispatch, &made) == S_OK) {
        V_VT(&values[0]) = VT_DISPATCH;
        V_DISPATCH(&values[0]) = made;
        well += called(hub, 5, DISPATCH_METHOD, values, 1, S_OK);
    }
    if (IDispatch_QueryInterface(item, &IID_DStock, (void **)&stock) == S_OK) {
        well += called(stock, 1, DISPATCH_PROPERTYGET, values, 0, S_OK);
        IDispatch_Release(stock);
    }
    if (round % 16) { /* which takes a hundred times as long as the others */
        well++;
    } else if (IDispatch_GetTypeInfo(round % 32 ? hub : item, 0, 0, &type) == S_OK) {
        ITypeInfo_Release(type);
        well++;
    }
    return well;
}

/* The bytes of all blocks that are in use, of each heap: the C library has one of its own. */
static SIZE_T heap_bytes(void)
{
    HANDLE heaps[64];
    DWORD count = GetProcessHeaps(64, heaps), i;
    SIZE_T sum = 0;

    for (i = 0; i < count && i < 64; i++) {
        PROCESS_HEAP_ENTRY entry;

        memset(&entry, 0, sizeof entry);
        HeapLock(heaps[i]);
        while (HeapWalk(heaps[i], &entry))
            if (entry.wFlags & PROCESS_HEAP_ENTRY_BUSY)
                sum += entry.cbData;
        HeapUnlock(heaps[i]);
    }
    return sum;
}

static void print_resources(LONGLONG calls)
{
    PROCESS_MEMORY_COUNTERS_EX counters;
    /* the lowest number that is free: Wine counts none */
    HANDLE next = CreateEventW(NULL, FALSE, FALSE, NULL);
    ULONG_PTR handles = (ULONG_PTR)next / 4;

    CloseHandle(next);
    memset(&counters, 0, sizeof counters);
    K32GetProcessMemoryInfo(GetCurrentProcess(), (PROCESS_MEMORY_COUNTERS *)&counters,
                            sizeof counters);
    printf("calls %lld handles %llu bytes %llu heap %llu\n", calls, (unsigned long long)handles,
           (unsigned long long)counters.WorkingSetSize, (unsigned long long)heap_bytes());
    fflush(stdout);
}

static void many_calls(LONGLONG wanted)
{
    IDispatch *hub = NULL, *item = NULL;
    LONGLONG calls, next = wanted / 10;
    int well = CALLS_OF_A_ROUND;
    LONG round = 0;
    CLSID clsid;
    HRESULT code = CLSIDFromProgID(L"Demo.Store", &clsid);

    if (code == S_OK)
        code = CoCreateInstance(&clsid, NULL, CLSCTX_INPROC_SERVER, &IID_IDispatch, (void **)&hub);
    if (code == S_OK)
        code = create(&IID_IDispatch, &item);
    tell(code == S_OK, "the objects are made", code);
    for (calls = 0; code == S_OK && calls < wanted && well == CALLS_OF_A_ROUND;
         calls += CALLS_OF_A_ROUND) {
        if (calls >= next) {
            print_resources(calls);
            next += wanted / 10;
        }
        well = round_of_calls(hub, item, round++);
    }
    print_resources(calls);
    tell(code == S_OK && calls >= wanted && well == CALLS_OF_A_ROUND, "all calls", (HRESULT)well);
    if (item)
        IDispatch_Release(item);
    if (hub)
        IDispatch_Release(hub);
}

int main(int count, char **words)
{
    const char *what = count > 1 ? words[1] : "";
    HRESULT code;

    CoInitialize(NULL);
    code = CLSIDFromProgID(L"Demo.Item", &class);
    tell(code == S_OK, "the class is registered", code);
    if (!strcmp(what, "early")) {
        interfaces();
        types("DItem 2 kind 4 vars 8 funcs 14");
        registered(&DEMO);
    } else if (!strcmp(what, "written")) {
        interfaces();
        types("Item 2 kind 4 vars 8 funcs 14");
        written();
    } else if (!strcmp(what, "plain")) {
        interfaces();
        types("Item 2 kind 4 vars 8 funcs 14");
    } else if (!strcmp(what, "apartments")) {
        apartments();
    } else if (!strcmp(what, "waits")) {
        waits();
    } else if (!strcmp(what, "turns")) {
        turns();
    } else if (!strcmp(what, "calls") && count > 2) {
        many_calls(atoll(words[2]));
    } else if (!strcmp(what, "unloads") && count > 2) {
        unloads(words[2]);
    } else if (!strcmp(what, "keeps") && count > 2) {
        keeps(words[2]);
    }
    CoUninitialize();
    puts("end");
    return 0;
}
