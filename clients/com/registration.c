/* The DLL's entry points, and what the registry holds for them.

   A class that this DLL serves is HKCR\CLSID\{GUID} with the DLL as its InprocServer32 and a key
   Oaut, which has Host and Port and may have Script, Store, Timeout, Idle, Watch and TypeLib
   (docs/guide/com.md). regsvr32 /n /i:NAME@HOST:PORT asks the server for its coclasses and enters
   NAME.Coclass for each, and NAME.Store for the server itself; /i:user:NAME@HOST:PORT enters them
   for the user alone. A class belongs to the name that its ProgID begins with, and no other name
   enters it or removes it. */
#include "classes.h"
#include "hub.h"
#include "information.h"
#include "messages.h"

#include <olectl.h>
#include <stdlib.h>
#include <wchar.h>

#define DEFAULT_TIMEOUT 30000u
#define DEFAULT_IDLE 500u
#define MAX_LIBRARY 39u  /* of NAME: as long as a ProgID should be */
#define MAX_CLASSES 512u /* twice what a library has */

/* Windows 7 and mingw's libraries have these, its headers do not. */
HRESULT WINAPI RegisterTypeLibForUser(ITypeLib *library, OLECHAR *file, OLECHAR *help);
HRESULT WINAPI UnRegisterTypeLibForUser(REFGUID library, WORD major, WORD minor, LCID locale,
                                        SYSKIND system);

static HINSTANCE this_dll;

/* ---- a class as it is registered */

static BOOL read_text_value(HKEY key, const WCHAR *name, WCHAR *text, DWORD units)
{
    DWORD size = (units - 1) * sizeof(WCHAR), type;

    memset(text, 0, units * sizeof(WCHAR)); /* a value may lack its NUL */
    if (RegQueryValueExW(key, name, NULL, &type, (BYTE *)text, &size) || type != REG_SZ)
        text[0] = 0;
    return text[0] != 0;
}

static DWORD read_number_value(HKEY key, const WCHAR *name, DWORD otherwise)
{
    DWORD size = sizeof(DWORD), type, number;

    if (RegQueryValueExW(key, name, NULL, &type, (BYTE *)&number, &size) || type != REG_DWORD ||
        size != sizeof number)
        return otherwise;
    return number;
}

#define CLASS_PATH 64 /* units of CLSID\{..}\InprocServer32 */

static void class_path(REFGUID guid, const WCHAR *below, WCHAR path[CLASS_PATH])
{
    WCHAR text[40];

    StringFromGUID2(guid, text, 40);
    swprintf(path, CLASS_PATH, L"CLSID\\%ls%ls", text, below);
}

/* Whether a class is one of this DLL's, and then its key. */
static BOOL open_class(REFGUID guid, HKEY *key)
{
    WCHAR path[CLASS_PATH];

    class_path(guid, L"\\Oaut", path);
    return !RegOpenKeyExW(HKEY_CLASSES_ROOT, path, 0, KEY_READ, key);
}

__declspec(dllexport) HRESULT WINAPI DllGetClassObject(REFCLSID guid, REFIID iid, void **made)
{
    Class class;
    HKEY key;
    BOOL whole;

    *made = NULL;
    if (!open_class(guid, &key))
        return CLASS_E_CLASSNOTAVAILABLE;
    memset(&class, 0, sizeof class);
    class.guid = *guid;
    whole = read_text_value(key, L"Host", class.settings.host, ARRAYSIZE(class.settings.host)) &&
            read_text_value(key, L"Port", class.settings.port, ARRAYSIZE(class.settings.port));
    read_text_value(key, L"Watch", class.settings.watch, ARRAYSIZE(class.settings.watch));
    read_text_value(key, L"TypeLib", class.settings.type_library,
                    ARRAYSIZE(class.settings.type_library));
    class.settings.timeout = read_number_value(key, L"Timeout", DEFAULT_TIMEOUT);
    class.settings.idle = read_number_value(key, L"Idle", DEFAULT_IDLE);
    switch (read_number_value(key, L"Script", 0)) {
    case 0:
        break;
    case 2:
        class.for_scripts = FOR_SCRIPTS | FOR_JSCRIPT | WITH_TEXTS;
        break;
    default:
        class.for_scripts = FOR_SCRIPTS | (read_number_value(key, L"Texts", 0) ? WITH_TEXTS : 0);
    }
    class.is_hub = read_number_value(key, L"Store", 0) != 0;
    RegCloseKey(key);
    return whole ? new_class_object(&class, iid, made) : CLASS_E_CLASSNOTAVAILABLE;
}

__declspec(dllexport) HRESULT WINAPI DllCanUnloadNow(void)
{
    return dll_references ? S_FALSE : S_OK;
}

/* ---- registration */

static BOOL is_name(const WCHAR *text)
{
    const WCHAR *at;

    for (at = text; *at; at++)
        if (!((*at >= L'a' && *at <= L'z') || (*at >= L'A' && *at <= L'Z') || *at == L'_' ||
              (at > text && *at >= L'0' && *at <= L'9')))
            return FALSE;
    return at > text;
}

/* NAME@HOST:PORT or NAME@oaut://HOST[:PORT]; HOST is in brackets if it is an IPv6 address. There is
 * no TLS here. */
static BOOL parse_line(const WCHAR *line, WCHAR name[MAX_LIBRARY + 1], Settings *settings)
{
    static const WCHAR scheme[] = L"oaut://", default_port[] = L":8765";
    const WCHAR *at = line ? wcschr(line, L'@') : NULL, *host = at ? at + 1 : NULL, *colon;
    BOOL is_url = host && !_wcsnicmp(host, scheme, ARRAYSIZE(scheme) - 1);
    size_t length;

    if (is_url)
        host += ARRAYSIZE(scheme) - 1;
    if (!host || (size_t)(at - line) > MAX_LIBRARY || wcspbrk(host, is_url ? L"/?#%@" : L"/"))
        return FALSE;
    colon = wcsrchr(host, L':');
    length = colon ? (size_t)(colon - host) : wcslen(host);
    if (is_url && (!colon || wcschr(colon, L']'))) {
        length = wcslen(host);
        colon = default_port;
    }
    if (!colon)
        return FALSE;
    if (length > 1 && host[0] == L'[' && host[length - 1] == L']') {
        host++;
        length -= 2;
    }
    if (!length || length >= ARRAYSIZE(settings->host) || !colon[1] ||
        wcslen(colon + 1) >= ARRAYSIZE(settings->port))
        return FALSE;
    memset(settings, 0, sizeof *settings);
    memcpy(name, line, (size_t)(at - line) * sizeof *name);
    name[at - line] = 0;
    memcpy(settings->host, host, length * sizeof *host);
    wcscpy(settings->port, colon + 1);
    settings->timeout = DEFAULT_TIMEOUT;
    return is_name(name);
}

#define CLASSES L"Software\\Classes"

/* The part of the registry for classes: that of all users of the machine, or that of one user. */
typedef struct Place {
    HKEY root; /* CLASSES of the machine or the user */
    BOOL is_user;
} Place;

/* A key of a place as programs of some bits have it. Such keys are opened from the machine's or the
 * user's root. */
static LSTATUS open_for_bits(const Place *place, const WCHAR *path, REGSAM access, HKEY *key)
{
    WCHAR whole[256];

    swprintf(whole, ARRAYSIZE(whole), L"%ls\\%ls", CLASSES, path);
    return RegOpenKeyExW(place->is_user ? HKEY_CURRENT_USER : HKEY_LOCAL_MACHINE, whole, 0, access,
                         key);
}

static BOOL set_text_value(const Place *place, const WCHAR *path, const WCHAR *name,
                           const WCHAR *text)
{
    DWORD size = (DWORD)((wcslen(text) + 1) * sizeof *text);

    return !RegSetKeyValueW(place->root, path, name, REG_SZ, text, size);
}

static BOOL set_number_value(const Place *place, const WCHAR *path, const WCHAR *name, DWORD number)
{
    return !RegSetKeyValueW(place->root, path, name, REG_DWORD, &number, sizeof number);
}

static BOOL has_key(HKEY root, const WCHAR *path)
{
    HKEY key;

    if (RegOpenKeyExW(root, path, 0, KEY_READ, &key))
        return FALSE;
    RegCloseKey(key);
    return TRUE;
}

/* A text below a class. */
static BOOL read_of_class(const Place *place, REFGUID guid, const WCHAR *below, const WCHAR *name,
                          WCHAR *text, DWORD units)
{
    WCHAR path[CLASS_PATH];
    BOOL found;
    HKEY key;

    class_path(guid, below, path);
    if (RegOpenKeyExW(place->root, path, 0, KEY_READ, &key))
        return FALSE;
    found = read_text_value(key, name, text, units);
    RegCloseKey(key);
    return found;
}

#define PROGID 128 /* units of NAME.Coclass */

/* Whether a class is registered for programs of 64 bits or of 32. */
static BOOL is_class_of_any_bits(const Place *place, REFGUID guid)
{
    static const REGSAM bits[] = {KEY_WOW64_64KEY, KEY_WOW64_32KEY};
    WCHAR path[CLASS_PATH];
    HKEY key;
    int i;

    class_path(guid, L"", path);
    for (i = 0; i < 2; i++)
        if (!open_for_bits(place, path, KEY_READ | bits[i], &key)) {
            RegCloseKey(key);
            return TRUE;
        }
    return FALSE;
}

/* Whether a class that the place has no own one of is another program's. A user's names may be of
 * classes of the machine. */
static BOOL is_class_of_another(const Place *place, REFGUID guid)
{
    static const Place machine = {NULL, FALSE};
    WCHAR path[CLASS_PATH];

    class_path(guid, L"\\Oaut", path);
    return is_class_of_any_bits(place, guid) ||
           (place->is_user && is_class_of_any_bits(&machine, guid) &&
            !has_key(HKEY_CLASSES_ROOT, path));
}

#define OTHER_BITS (sizeof(void *) == 8 ? KEY_WOW64_32KEY : KEY_WOW64_64KEY)

/* Whether a class of this DLL's bears a ProgID, for programs of the other bits. */
static BOOL is_borne_by_other_bits(const Place *place, REFGUID guid, const WCHAR *progid)
{
    WCHAR path[CLASS_PATH], text[PROGID];
    BOOL is_own = FALSE;
    HKEY key;

    class_path(guid, L"\\Oaut", path);
    if (open_for_bits(place, path, KEY_READ | OTHER_BITS, &key))
        return FALSE;
    RegCloseKey(key);
    class_path(guid, L"\\ProgID", path);
    if (open_for_bits(place, path, KEY_READ | OTHER_BITS, &key))
        return FALSE;
    is_own = read_text_value(key, NULL, text, PROGID) && !_wcsicmp(text, progid);
    RegCloseKey(key);
    return is_own;
}

/* Whether a key has no value, and so many keys below. */
static BOOL has_only(HKEY root, const WCHAR *path, DWORD wanted)
{
    DWORD keys = 0, values = 1;
    HKEY key;

    if (RegOpenKeyExW(root, path, 0, KEY_READ, &key))
        return FALSE;
    if (RegQueryInfoKeyW(key, NULL, NULL, NULL, &keys, NULL, NULL, &values, NULL, NULL, NULL, NULL))
        values = 1;
    RegCloseKey(key);
    return keys == wanted && !values;
}

/* Whether a ProgID has what this DLL enters and nothing else. */
static BOOL is_bare_progid(HKEY root, const WCHAR *progid)
{
    return has_only(root, progid, 1);
}

/* The class of a ProgID, if it is one of this DLL's, or one that is gone and was of this DLL's
   form; S_FALSE if there is no such ProgID, and SELFREG_E_CLASS if it is another program's. */
static HRESULT class_of_progid(const Place *place, const WCHAR *progid, GUID *guid)
{
    WCHAR path[PROGID + 8], text[40];
    BOOL found;
    HKEY key;

    swprintf(path, ARRAYSIZE(path), L"%ls\\CLSID", progid);
    if (!has_key(place->root, progid))
        return S_FALSE;
    if (RegOpenKeyExW(place->root, path, 0, KEY_READ, &key))
        return SELFREG_E_CLASS;
    found = read_text_value(key, NULL, text, ARRAYSIZE(text)) &&
            SUCCEEDED(CLSIDFromString(text, guid));
    RegCloseKey(key);
    if (!found)
        return SELFREG_E_CLASS;
    class_path(guid, L"\\Oaut", path);
    if (has_key(place->root, path) || is_borne_by_other_bits(place, guid, progid))
        return S_OK;
    return !is_class_of_another(place, guid) && is_bare_progid(place->root, progid)
               ? S_OK
               : SELFREG_E_CLASS;
}

/* ---- the type library, which is registered with the classes that have it */

/* Which one a class names. */
static BOOL library_of_class(const Place *place, REFGUID guid, GUID *library, WORD *major,
                             WORD *minor)
{
    WCHAR text[40], *behind;
    unsigned long one, other;

    if (!read_of_class(place, guid, L"\\TypeLib", NULL, text, ARRAYSIZE(text)) ||
        FAILED(CLSIDFromString(text, library)) ||
        !read_of_class(place, guid, L"\\Version", NULL, text, ARRAYSIZE(text)))
        return FALSE;
    one = wcstoul(text, &behind, 10);
    other = *behind == L'.' ? wcstoul(behind + 1, &behind, 10) : 0;
    *major = (WORD)one;
    *minor = (WORD)other;
    return !*behind && one <= MAXWORD && other <= MAXWORD;
}

/* Whether a type library is registered under a file other than this one. */
static BOOL is_registered_elsewhere(REFGUID library, WORD major, WORD minor, const WCHAR *file)
{
    BSTR path;
    BOOL is_other;

    if (FAILED(QueryPathOfRegTypeLib(library, major, minor, LOCALE_NEUTRAL, &path)))
        return FALSE;
    is_other = CompareStringOrdinal(path, -1, file, -1, TRUE) != CSTR_EQUAL;
    SysFreeString(path);
    return is_other;
}

#define SYSTEM (sizeof(void *) == 8 ? SYS_WIN64 : SYS_WIN32)

/* Unregisters a type library, if it is registered with a file. */
static void remove_library(const Place *place, REFGUID library, WORD major, WORD minor,
                           const WCHAR *file)
{
    if (is_registered_elsewhere(library, major, minor, file))
        return;
    if (place->is_user)
        UnRegisterTypeLibForUser(library, major, minor, LOCALE_NEUTRAL, SYSTEM);
    else
        UnRegisterTypeLib(library, major, minor, LOCALE_NEUTRAL, SYSTEM);
}

/* The file NAME.tlb beside the DLL, if it exists. */
static BOOL find_type_library(const WCHAR *dll, const WCHAR *name, WCHAR file[MAX_PATH])
{
    const WCHAR *slash = wcsrchr(dll, L'\\');
    size_t folder = slash ? (size_t)(slash + 1 - dll) : 0;

    file[0] = 0;
    if (folder + wcslen(name) + 5 > MAX_PATH)
        return FALSE;
    memcpy(file, dll, folder * sizeof *file);
    swprintf(file + folder, MAX_PATH - folder, L"%ls.tlb", name);
    if (GetFileAttributesW(file) != INVALID_FILE_ATTRIBUTES)
        return TRUE;
    file[0] = 0;
    return FALSE;
}

/* What of a type library's file is entered with each class. */
typedef struct Types {
    WCHAR file[MAX_PATH]; /* empty if there is none */
    GUID library;
    WORD major, minor;
    BOOL is_entered;
    /* by this DLL, from the server's description; else it was beside the DLL */
    BOOL is_written;
} Types;

#define FOLDER L"\\oaut"

/* The place of a type library: beside the DLL for all users, otherwise in a folder of the user.
 * `folder` is the latter, or empty. */
static BOOL find_written_file(const Place *place, const WCHAR *dll, const WCHAR *name,
                              WCHAR file[MAX_PATH], WCHAR folder[MAX_PATH])
{
    const WCHAR *slash = wcsrchr(dll, L'\\');
    size_t length = slash ? (size_t)(slash - dll) : 0;
    DWORD units = place->is_user ? GetEnvironmentVariableW(L"LOCALAPPDATA", folder, MAX_PATH) : 0;

    if (!units || units + wcslen(FOLDER) >= MAX_PATH)
        folder[0] = 0;
    else
        wcscat(folder, FOLDER);
    if ((folder[0] ? wcslen(folder) : length) + wcslen(name) + 9 > MAX_PATH)
        return FALSE;
    swprintf(file, MAX_PATH, L"%.*ls\\%ls-%d.tlb", folder[0] ? MAX_PATH : (int)length,
             folder[0] ? folder : dll, name, (int)sizeof(void *) * 8);
    return TRUE;
}

/* Removes a file that write_types has made, and none else. */
static void remove_written_file(const Place *place, const WCHAR *file)
{
    WCHAR folder[MAX_PATH], *slash;

    if (!is_written_file(file))
        return;
    DeleteFileW(file);
    wcscpy(folder, file);
    if (place->is_user && (slash = wcsrchr(folder, L'\\'))) {
        *slash = 0;
        RemoveDirectoryW(folder); /* which it does if nothing is in it */
    }
}

/* Takes out the type library that a class names, and removes the file if this DLL has written
 * it. */
static void remove_library_of(const Place *place, REFGUID class)
{
    WCHAR file[MAX_PATH];
    WORD major, minor;
    GUID library;
    BOOL is_written = read_of_class(place, class, L"\\Oaut", L"Written", file, ARRAYSIZE(file));

    if (!is_written && !read_of_class(place, class, L"\\Oaut", L"TypeLib", file, ARRAYSIZE(file)))
        return;
    if (library_of_class(place, class, &library, &major, &minor))
        remove_library(place, &library, major, minor, file);
    if (is_written)
        remove_written_file(place, file);
}

/* Writes a type library from the server's description to a file that this call makes in the same
   folder, which then takes the other's name. */
static BOOL write_file(const Library *told, REFGUID hub, const WCHAR *name, const WCHAR *file)
{
    WCHAR folder[MAX_PATH], made[MAX_PATH], *slash;

    wcscpy(folder, file);
    if ((slash = wcsrchr(folder, L'\\')))
        *slash = 0;
    if (!slash || !GetTempFileNameW(folder, L"tlb", 0, made))
        return FALSE;
    if (SUCCEEDED(write_types(told, hub, name, made)) &&
        MoveFileExW(made, file, MOVEFILE_REPLACE_EXISTING))
        return TRUE;
    DeleteFileW(made);
    return FALSE;
}

/* Writes the type library of a name. Another file with its name stays; then, and if the file cannot
   be written, the classes are registered without types. */
static void write_library(const Place *place, const WCHAR *dll, const WCHAR *name,
                          const Library *told, REFGUID hub, Types *types)
{
    WCHAR folder[MAX_PATH];

    if (!find_written_file(place, dll, name, types->file, folder)) {
        types->file[0] = 0;
        return;
    }
    if (folder[0])
        CreateDirectoryW(folder, NULL);
    if (GetFileAttributesW(types->file) != INVALID_FILE_ATTRIBUTES &&
        !is_written_file(types->file)) {
        report(L"%ls: this file is another program's, so %ls is registered without a type library",
               types->file, name);
    } else if (!write_file(told, hub, name, types->file)) {
        report(L"%ls: this file cannot be written, so %ls is registered without a type library",
               types->file, name);
    } else {
        types->is_written = TRUE;
        return;
    }
    types->file[0] = 0;
}

/* Takes the proxy of an interface out, for programs of 64 bits or of 32: a type library is
 * registered for both. */
static void remove_proxy(const Place *place, const WCHAR *path, REGSAM bits)
{
    HKEY key;

    if (open_for_bits(place, path, KEY_ALL_ACCESS | bits, &key))
        return;
    RegDeleteTreeW(key, L"ProxyStubClsid32");
    RegCloseKey(key);
}

/* Takes the proxies of a coclass's interfaces out that are not its default one. The system's stub
   of a dispinterface calls the object's IDispatch: in another apartment a second interface would be
   the first one, without a word. */
static void remove_proxies(const Place *place, ITypeInfo *class)
{
    WCHAR path[80], text[40];
    TYPEATTR *attributes;
    HREFTYPE reference;
    ITypeInfo *type;
    INT flags;
    UINT i;

    for (i = 0; SUCCEEDED(ITypeInfo_GetRefTypeOfImplType(class, i, &reference)); i++) {
        if (FAILED(ITypeInfo_GetImplTypeFlags(class, i, &flags)) ||
            (flags & IMPLTYPEFLAG_FDEFAULT) ||
            FAILED(ITypeInfo_GetRefTypeInfo(class, reference, &type)))
            continue;
        if (SUCCEEDED(ITypeInfo_GetTypeAttr(type, &attributes))) {
            StringFromGUID2(&attributes->guid, text, ARRAYSIZE(text));
            swprintf(path, ARRAYSIZE(path), L"Interface\\%ls", text);
            remove_proxy(place, path, KEY_WOW64_64KEY);
            remove_proxy(place, path, KEY_WOW64_32KEY);
            ITypeInfo_ReleaseTypeAttr(type, attributes);
        }
        ITypeInfo_Release(type);
    }
}

static void remove_all_proxies(const Place *place, ITypeLib *library)
{
    ITypeInfo *class;
    TYPEKIND kind;
    UINT i;

    for (i = 0; i < ITypeLib_GetTypeInfoCount(library); i++)
        if (SUCCEEDED(ITypeLib_GetTypeInfoType(library, i, &kind)) && kind == TKIND_COCLASS &&
            SUCCEEDED(ITypeLib_GetTypeInfo(library, i, &class))) {
            remove_proxies(place, class);
            ITypeInfo_Release(class);
        }
}

/* Whether the file that a type library is registered with is one that this DLL has written, or is
 * gone. */
static BOOL is_registered_as_written(const Types *types)
{
    BOOL is_own;
    BSTR path;

    if (FAILED(QueryPathOfRegTypeLib(&types->library, types->major, types->minor, LOCALE_NEUTRAL,
                                     &path)))
        return FALSE;
    is_own = GetFileAttributesW(path) == INVALID_FILE_ATTRIBUTES || is_written_file(path);
    SysFreeString(path);
    return is_own;
}

/* Registers the file that `types` has, unless another program has registered that type library with
 * another one. */
static HRESULT enter_types(const Place *place, Types *types)
{
    TLIBATTR *attributes;
    ITypeLib *library;
    HRESULT result;

    if (FAILED(result = LoadTypeLibEx(types->file, REGKIND_NONE, &library))) {
        report(L"%ls: it is no type library", types->file);
        return result;
    }
    if (SUCCEEDED(result = ITypeLib_GetLibAttr(library, &attributes))) {
        types->library = attributes->guid;
        types->major = attributes->wMajorVerNum;
        types->minor = attributes->wMinorVerNum;
        if (is_registered_elsewhere(&types->library, types->major, types->minor, types->file) &&
            !(types->is_written && is_registered_as_written(types)))
            result = SELFREG_E_TYPELIB;
        else if (place->is_user)
            result = RegisterTypeLibForUser(library, types->file, NULL);
        else
            result = RegisterTypeLib(library, types->file, NULL);
        if (FAILED(result))
            report(result == SELFREG_E_TYPELIB
                       ? L"%ls: another file is registered as this type library"
                       : L"%ls: this type library cannot be registered",
                   types->file);
        types->is_entered = SUCCEEDED(result);
        if (types->is_entered)
            remove_all_proxies(place, library);
        ITypeLib_ReleaseTLibAttr(library, attributes);
    }
    ITypeLib_Release(library);
    return result;
}

/* Registers the type library beside the DLL, else one that is written from the server's
 * description. */
static HRESULT provide_types(const Place *place, const WCHAR *dll, const WCHAR *name,
                             const Library *told, REFGUID hub, Types *types)
{
    memset(types, 0, sizeof *types);
    if (!find_type_library(dll, name, types->file))
        write_library(place, dll, name, told, hub, types);
    return types->file[0] ? enter_types(place, types) : S_OK;
}

/* Takes out what provide_types has entered. */
static void withdraw_types(const Place *place, const Types *types)
{
    if (types->is_entered)
        remove_library(place, &types->library, types->major, types->minor, types->file);
    if (types->is_written)
        remove_written_file(place, types->file);
}

/* ---- classes */

/* Removes a ProgID of this DLL's, and its class with the type library if that class bears the
   ProgID: one that another name has entered stays. S_FALSE if there is none, or if it stays,
   because the class is registered for programs of the other bits too. */
static HRESULT remove_class(const Place *place, const WCHAR *progid)
{
    WCHAR path[CLASS_PATH], bears[PROGID];
    GUID guid;
    HRESULT result = class_of_progid(place, progid, &guid);

    if (result != S_OK)
        return result;
    class_path(&guid, L"\\Oaut", path);
    if (has_key(place->root, path) &&
        (!read_of_class(place, &guid, L"\\ProgID", NULL, bears, ARRAYSIZE(bears)) ||
         !_wcsicmp(bears, progid))) {
        remove_library_of(place, &guid);
        class_path(&guid, L"", path);
        RegDeleteTreeW(place->root, path);
    }
    if (is_borne_by_other_bits(place, &guid, progid))
        return S_FALSE;
    RegDeleteTreeW(place->root, progid);
    return S_OK;
}

static BOOL is_of_name(const WCHAR *progid, const WCHAR *name)
{
    size_t length = wcslen(name);

    return !_wcsnicmp(progid, name, length) && progid[length] == L'.';
}

/* Whether a GUID is free for a name: it has no class, or one of this DLL's that the name has
   entered, or that is damaged. Reports what it is otherwise. */
static BOOL is_free(HKEY root, REFGUID guid, const WCHAR *name, const WCHAR *progid)
{
    WCHAR path[CLASS_PATH], own[CLASS_PATH], bears[PROGID], text[MAX_PATH], port[16];
    Place place = {root, FALSE};
    const WCHAR *dot;

    class_path(guid, L"", path);
    class_path(guid, L"\\Oaut", own);
    if (!has_key(root, path))
        return TRUE;
    if (!has_key(root, own)) {
        if (!read_of_class(&place, guid, L"\\InprocServer32", NULL, text, ARRAYSIZE(text)) &&
            !read_of_class(&place, guid, L"\\LocalServer32", NULL, text, ARRAYSIZE(text)))
            wcscpy(text, L"without a server");
        report(L"%ls: its class, HKEY_CLASSES_ROOT\\%ls, is registered by another program (%ls)",
               progid, path, text);
        return FALSE;
    }
    if (!read_of_class(&place, guid, L"\\ProgID", NULL, bears, PROGID) || !has_key(root, bears) ||
        is_of_name(bears, name) || !(dot = wcschr(bears, L'.')))
        return TRUE;
    if (!read_of_class(&place, guid, L"\\Oaut", L"Host", text, ARRAYSIZE(text)) ||
        !read_of_class(&place, guid, L"\\Oaut", L"Port", port, ARRAYSIZE(port)))
        text[0] = port[0] = 0;
    report(L"%ls: its class is registered as %ls, of %ls:%ls; a library has one name on a machine: "
           L"unregister %.*ls "
           L"first, "
           L"or give the second store's library GUIDs of its own",
           progid, bears, text, port, (int)(dot - bears), bears);
    return FALSE;
}

/* Whether a coclass can be entered under a name. Nothing is changed; it reports what is wrong. */
static HRESULT check_class(const Place *place, const WCHAR *name, const WCHAR *coclass,
                           REFGUID guid)
{
    WCHAR progid[PROGID];
    GUID other;

    /* a server's word goes into the registry as a name only, and never over what another program
     * has entered */
    if (!is_name(coclass)) {
        report(L"the server has a coclass whose name is not one: letters, digits and _ are");
        return SELFREG_E_CLASS;
    }
    swprintf(progid, PROGID, L"%ls.%ls", name, coclass);
    if (FAILED(class_of_progid(place, progid, &other))) {
        report(L"%ls: this name is registered by another program", progid);
        return SELFREG_E_CLASS;
    }
    return is_free(place->root, guid, name, progid) &&
                   is_free(HKEY_CLASSES_ROOT, guid, name, progid)
               ? S_OK
               : SELFREG_E_CLASS;
}

/* Enters a class. `coclass` is a name that the server has sent, or Store. */
static HRESULT enter_class(const Place *place, const WCHAR *name, const WCHAR *coclass,
                           REFGUID guid, const Settings *settings, const WCHAR *dll,
                           const Types *types, BOOL is_hub)
{
    WCHAR progid[PROGID], path[CLASS_PATH], id[40], text[40], below[PROGID + 8];
    BOOL well;

    swprintf(progid, PROGID, L"%ls.%ls", name, coclass);
    if (FAILED(remove_class(place, progid)))
        return SELFREG_E_CLASS;
    StringFromGUID2(guid, id, 40);
    class_path(guid, L"", path);
    RegDeleteTreeW(place->root, path); /* nothing stays of an earlier registration */
    /* first, since a class is this DLL's if it has this key */
    class_path(guid, L"\\Oaut", path);
    well = set_text_value(place, path, L"Host", settings->host) &&
           set_text_value(place, path, L"Port", settings->port) &&
           set_number_value(place, path, L"Script", 1);
    if (is_hub)
        well = well && set_number_value(place, path, L"Store", 1);
    if (types->file[0])
        well = well && set_text_value(place, path, types->is_written ? L"Written" : L"TypeLib",
                                      types->file);
    class_path(guid, L"", path);
    well = well && set_text_value(place, path, NULL, progid);
    class_path(guid, L"\\InprocServer32", path);
    well = well && set_text_value(place, path, NULL, dll) &&
           set_text_value(place, path, L"ThreadingModel", L"Apartment");
    class_path(guid, L"\\ProgID", path);
    well = well && set_text_value(place, path, NULL, progid);
    if (types->file[0]) {
        StringFromGUID2(&types->library, text, ARRAYSIZE(text));
        class_path(guid, L"\\TypeLib", path);
        well = well && set_text_value(place, path, NULL, text);
        swprintf(text, ARRAYSIZE(text), L"%u.%u", types->major, types->minor);
        class_path(guid, L"\\Version", path);
        well = well && set_text_value(place, path, NULL, text);
    }
    swprintf(below, ARRAYSIZE(below), L"%ls\\CLSID", progid);
    well = well && set_text_value(place, below, NULL, id);
    if (well)
        return S_OK;
    report(L"%ls: the registry refuses a value, so nothing is registered", progid);
    class_path(guid, L"", path); /* half entered it has no name to be removed by */
    RegDeleteTreeW(place->root, path);
    return SELFREG_E_CLASS;
}

/* What a server says of its library: the coclasses, and the GUID of the first item. */
typedef struct Told {
    GUID first;
    UINT32 count;

    struct {
        GUID guid;
        WCHAR name[MAX_NAME + 1];
    } classes[MAX_CLASSES];
} Told;

static HRESULT ask_classes(Connection *connection, Told *told)
{
    Reader entries;
    HRESULT result;
    UINT32 index;
    Item item;

    for (index = 0; (result = describe_item(connection, index, &item, &entries)) == S_OK; index++) {
        if (told->count == MAX_CLASSES || index == 2 * MAX_CLASSES)
            return OAUT_E_NO_REPLY;
        if (!index)
            told->first = item.guid;
        if (item.kind != KIND_COCLASS)
            continue;
        told->classes[told->count].guid = item.guid;
        memcpy(told->classes[told->count++].name, item.name, sizeof item.name);
    }
    if (result != DISP_E_BADINDEX)
        return result;
    return told->count ? S_OK : SELFREG_E_CLASS;
}

/* Takes out the classes of a name that its ProgIDs do not lead to: those of a registration that is
 * damaged. */
static void remove_orphans(const Place *place, const WCHAR *name)
{
    WCHAR text[256], bears[PROGID], path[CLASS_PATH];
    DWORD index = 0, units = ARRAYSIZE(text);
    HKEY classes;
    GUID guid;

    if (RegOpenKeyExW(place->root, L"CLSID", 0, KEY_READ, &classes))
        return;
    for (; !RegEnumKeyExW(classes, index++, text, &units, NULL, NULL, NULL, NULL);
         units = ARRAYSIZE(text)) {
        if (text[0] != L'{' || FAILED(CLSIDFromString(text, &guid)))
            continue;
        class_path(&guid, L"\\Oaut", path);
        if (!has_key(place->root, path) ||
            (!read_of_class(place, &guid, L"\\ProgID", NULL, bears, PROGID) &&
             !read_of_class(place, &guid, L"", NULL, bears, PROGID)) ||
            !is_of_name(bears, name))
            continue;
        remove_library_of(place, &guid);
        class_path(&guid, L"", path);
        if (!RegDeleteTreeW(place->root, path))
            index--; /* the next one is in its place */
    }
    RegCloseKey(classes);
}

/* Takes out all ProgIDs NAME.* of this DLL's, and all classes of the name; the server is not
 * asked. */
static void remove_all(const Place *place, const WCHAR *name)
{
    WCHAR progid[PROGID];
    DWORD index = 0, units = PROGID;
    LSTATUS status;

    for (;; units = PROGID) {
        status = RegEnumKeyExW(place->root, index, progid, &units, NULL, NULL, NULL, NULL);
        if (status != ERROR_SUCCESS && status != ERROR_MORE_DATA)
            break;
        if (status != ERROR_SUCCESS || !is_of_name(progid, name) ||
            remove_class(place, progid) != S_OK)
            index++; /* else the next one is in its place */
    }
    remove_orphans(place, name);
    /* a user whose first class it was had none */
    if (place->is_user && has_only(place->root, L"CLSID", 0))
        RegDeleteKeyW(place->root, L"CLSID");
}

/* Enters all coclasses and the hub, whose GUID is made of that of the library's first interface.
   What an earlier registration has left goes first, so that its type library is not taken for
   another program's. */
static HRESULT enter_all(const Place *place, const WCHAR *name, const Settings *settings,
                         const Told *told, const Library *library)
{
    WCHAR dll[MAX_PATH];
    DWORD length = GetModuleFileNameW(this_dll, dll, MAX_PATH);
    GUID hub = hub_of_library(&told->first);
    HRESULT result;
    Types types;
    UINT32 i;

    if (!length || length >= MAX_PATH)
        return SELFREG_E_CLASS;
    result = check_class(place, name, L"Store", &hub);
    for (i = 0; i < told->count && SUCCEEDED(result); i++)
        result = check_class(place, name, told->classes[i].name, &told->classes[i].guid);
    if (FAILED(result))
        return result; /* and what the name has stays */
    remove_all(place, name);
    result = provide_types(place, dll, name, library, &hub, &types);
    for (i = 0; i < told->count && SUCCEEDED(result); i++)
        result = enter_class(place, name, told->classes[i].name, &told->classes[i].guid, settings,
                             dll, &types, FALSE);
    if (SUCCEEDED(result))
        result = enter_class(place, name, L"Store", &hub, settings, dll, &types, TRUE);
    if (FAILED(result)) { /* all of them or none */
        remove_all(place, name);
        withdraw_types(place, &types);
    }
    return result;
}

/* What the server has is entered, at a place. */
static HRESULT enter_of_server(const Place *place, const WCHAR *name, const Settings *settings)
{
    Connection *connection = connection_to(settings);
    HRESULT result = E_OUTOFMEMORY;
    const Library *library;
    Told *told;

    if (!connection)
        return result;
    if ((told = calloc(1, sizeof *told))) {
        connection_enter(connection);
        if (FAILED(result = ask_classes(connection, told)) ||
            FAILED(result = library_of(connection, &library)))
            report_refusal(result, connection);
        else
            result = enter_all(place, name, settings, told, library);
        connection_leave(connection, result);
    }
    connection_release(connection);
    free(told);
    return result;
}

#define FOR_USER L"user:"
#define USAGE                                                                   \
    L"nothing is changed: give the name and the server, as in  regsvr32 %ls/n " \
    L"/i:Desk@localhost:8765 oautcom.dll  "                                     \
    L"(/i:user:Desk@localhost:8765 for yourself alone, without administrator rights)"

__declspec(dllexport) HRESULT WINAPI DllInstall(BOOL on, LPCWSTR line)
{
    size_t length = wcslen(FOR_USER);
    Place place = {NULL, FALSE};
    WCHAR name[MAX_LIBRARY + 1];
    HRESULT result = S_OK;
    Settings settings;

    if (line && !wcsncmp(line, FOR_USER, length)) {
        place.is_user = TRUE;
        line += length;
    }
    if (!parse_line(line, name, &settings)) {
        report(USAGE, on ? L"" : L"/u ");
        return E_INVALIDARG;
    }
    if (RegCreateKeyExW(place.is_user ? HKEY_CURRENT_USER : HKEY_LOCAL_MACHINE, CLASSES, 0, NULL, 0,
                        KEY_ALL_ACCESS, NULL, &place.root, NULL)) {
        report(
            L"the registry cannot be changed: run it as administrator, or say /i:user:%ls@%ls:%ls",
            name, settings.host, settings.port);
        return SELFREG_E_CLASS;
    }
    if (on)
        result = enter_of_server(&place, name, &settings);
    else
        remove_all(&place, name);
    RegCloseKey(place.root);
    return result;
}

/* What oautreg asks: whether a server is reached at HOST:PORT. Prints its coclasses, or why it is
 * not. */
__declspec(dllexport) HRESULT WINAPI OautTest(LPCWSTR address)
{
    WCHAR line[320], name[MAX_LIBRARY + 1];
    Connection *connection;
    HRESULT result = E_OUTOFMEMORY;
    Settings settings;
    Told *told;
    UINT32 i;

    if (wcslen(address) > 300 || swprintf(line, ARRAYSIZE(line), L"Test@%ls", address) < 0 ||
        !parse_line(line, name, &settings)) {
        report(L"%ls is no address: HOST:PORT or oaut://HOST:PORT is, and there is no TLS here",
               address);
        return E_INVALIDARG;
    }
    if (!(connection = connection_to(&settings)))
        return result;
    connection_enter(connection);
    if ((told = calloc(1, sizeof *told)) && FAILED(result = ask_classes(connection, told)))
        report_refusal(result, connection);
    connection_leave(connection, result);
    connection_release(connection);
    for (i = 0; told && SUCCEEDED(result) && i < told->count; i++)
        say(L"%ls has the coclass %ls", address,
            is_name(told->classes[i].name) ? told->classes[i].name : L"?");
    free(told);
    return result;
}

/* regsvr32 calls these without /n. Only a server knows its classes, so they say what to do. */
__declspec(dllexport) HRESULT WINAPI DllRegisterServer(void)
{
    report(USAGE, L"");
    return E_INVALIDARG;
}

__declspec(dllexport) HRESULT WINAPI DllUnregisterServer(void)
{
    report(USAGE, L"/u ");
    return E_INVALIDARG;
}

BOOL WINAPI DllMain(HINSTANCE dll, DWORD reason, void *reserved)
{
    (void)reserved;
    if (reason == DLL_PROCESS_ATTACH) {
        this_dll = dll;
        DisableThreadLibraryCalls(dll);
        connections_begin();
    }
    return TRUE;
}
