/* Class objects: what CoCreateInstance and GetObject ask. */
#ifndef OAUT_CLASSES_H
#define OAUT_CLASSES_H

#include "objects.h"

/* What is registered of a class: CLSID\{..}\Oaut in the registry (registration.c). */
typedef struct Class {
    GUID guid;
    Settings settings;
    BOOL is_hub;     /* the server, no coclass */
    int for_scripts; /* how its hosts have values (values.h) */
} Class;

/* A class object: IClassFactory, and of a hub IParseDisplayName. */
HRESULT new_class_object(const Class *class, REFIID iid, void **made);

#endif
