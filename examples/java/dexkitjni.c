/* The native methods of Dexkit.java. */
#include "dexkit.h"

#include <jni.h>
#include <stdio.h>
#include <stdlib.h>
#include <string.h>

static void throw_named(JNIEnv *env, const char *name, const char *message) {
    jclass type = (*env)->FindClass(env, name);
    if (type) (*env)->ThrowNew(env, type, message);
}

/* Throws what a status and a fault stand for, and frees the fault's text. */
static void throw_fault(JNIEnv *env, int status, dexkit_fault *fault) {
    char line[64];
    const char *text = fault->text;
    if (status == DEXKIT_NO_MEMORY) {
        throw_named(env, "java/lang/OutOfMemoryError", "dexkit");
    } else if (status == DEXKIT_USAGE) {
        throw_named(env, "java/lang/IllegalArgumentException", "no file, a cap above the greatest, or a fan of 1");
    } else if (status == DEXKIT_REFUSED) {
        snprintf(line, sizeof line, "refused %u %s at %u", fault->number, dexkit_condition(fault->number).text,
                 fault->place);
        if (!text) text = fault->kind == DEXKIT_FAULT_INPUT ? line : "refused";
        jclass type = (*env)->FindClass(env, "Dexkit$Refused");
        jmethodID make = type ? (*env)->GetMethodID(env, type, "<init>", "(IIIILjava/lang/String;)V") : NULL;
        jstring message = make ? (*env)->NewStringUTF(env, text) : NULL;
        jobject refused = message ? (*env)->NewObject(env, type, make, (jint)fault->kind, (jint)fault->number,
                                                      (jint)fault->place, (jint)fault->input, message)
                                  : NULL;
        if (refused) (*env)->Throw(env, refused);
    }
    dexkit_fault_free(fault);
}

/* The bytes of an array, copied or held until they are released. */
static dexkit_bytes hold(JNIEnv *env, jbyteArray array) {
    jbyte *bytes = (*env)->GetByteArrayElements(env, array, NULL);
    return (dexkit_bytes){(const uint8_t *)bytes, bytes ? (size_t)(*env)->GetArrayLength(env, array) : 0};
}

static void release(JNIEnv *env, jbyteArray array, dexkit_bytes file) {
    if (file.bytes) (*env)->ReleaseByteArrayElements(env, array, (jbyte *)file.bytes, JNI_ABORT);
}

/* The bytes of a buffer as an array; the buffer is freed. */
static jbyteArray array_of(JNIEnv *env, dexkit_buffer *made) {
    jbyteArray array = NULL;
    if (made->len > INT32_MAX)
        throw_named(env, "java/lang/OutOfMemoryError", "dexkit");
    else if ((array = (*env)->NewByteArray(env, (jsize)made->len)))
        (*env)->SetByteArrayRegion(env, array, 0, (jsize)made->len, (const jbyte *)made->bytes);
    dexkit_buffer_free(made);
    return array;
}

JNIEXPORT jstring JNICALL Java_Dexkit_version(JNIEnv *env, jclass self) {
    (void)self;
    return (*env)->NewStringUTF(env, dexkit_version());
}

JNIEXPORT jint JNICALL Java_Dexkit_check(JNIEnv *env, jclass self, jbyteArray array) {
    size_t classes = 0;
    dexkit_fault fault = {0};
    dexkit_bytes file = hold(env, array);
    (void)self;
    if (!file.bytes) return 0;
    int status = dexkit_check(file.bytes, file.len, &classes, &fault);
    release(env, array, file);
    throw_fault(env, status, &fault);
    return (jint)classes;
}

static jbyteArray made_of(JNIEnv *env, jbyteArray array,
                          int (*make)(const uint8_t *, size_t, dexkit_buffer *, dexkit_fault *)) {
    dexkit_buffer made = {NULL, 0};
    dexkit_fault fault = {0};
    dexkit_bytes file = hold(env, array);
    if (!file.bytes) return NULL;
    int status = make(file.bytes, file.len, &made, &fault);
    release(env, array, file);
    if (status == DEXKIT_OK) return array_of(env, &made);
    throw_fault(env, status, &fault);
    return NULL;
}

JNIEXPORT jbyteArray JNICALL Java_Dexkit_normalise(JNIEnv *env, jclass self, jbyteArray array) {
    (void)self;
    return made_of(env, array, dexkit_normalise);
}

JNIEXPORT jbyteArray JNICALL Java_Dexkit_repair(JNIEnv *env, jclass self, jbyteArray array) {
    (void)self;
    return made_of(env, array, dexkit_repair);
}

JNIEXPORT jbyteArray JNICALL Java_Dexkit_dump(JNIEnv *env, jclass self, jbyteArray array) {
    (void)self;
    return made_of(env, array, dexkit_dump);
}

/* Copies of the files, and how many they are. NULL, with an exception, if memory lacks or one is null. */
static dexkit_bytes *copy_all(JNIEnv *env, jobjectArray arrays, size_t *count) {
    jsize all = (*env)->GetArrayLength(env, arrays);
    dexkit_bytes *files = calloc((size_t)all + 1, sizeof *files);
    for (*count = 0; files && *count < (size_t)all; ++*count) {
        jbyteArray array = (*env)->GetObjectArrayElement(env, arrays, (jsize)*count);
        jsize len = array ? (*env)->GetArrayLength(env, array) : 0;
        uint8_t *bytes = array ? malloc((size_t)len + 1) : NULL;
        if (!bytes) {
            throw_named(env, array ? "java/lang/OutOfMemoryError" : "java/lang/NullPointerException", "dexkit");
            break;
        }
        (*env)->GetByteArrayRegion(env, array, 0, len, (jbyte *)bytes);
        (*env)->DeleteLocalRef(env, array);
        files[*count] = (dexkit_bytes){bytes, (size_t)len};
    }
    if (!files) throw_named(env, "java/lang/OutOfMemoryError", "dexkit");
    return files;
}

static void free_all(dexkit_bytes *files, size_t count) {
    for (size_t i = 0; i < count; i++) free((void *)files[i].bytes);
    free(files);
}

JNIEXPORT jbyteArray JNICALL Java_Dexkit_merge(JNIEnv *env, jclass self, jobjectArray arrays, jintArray numbers,
                                               jint fan, jboolean strip) {
    dexkit_caps caps = DEXKIT_CAPS_GREATEST;
    dexkit_buffer made = {NULL, 0};
    dexkit_fault fault = {0};
    size_t count = 0;
    int status = DEXKIT_USAGE;
    (void)self;
    _Static_assert(sizeof caps == 6 * sizeof(jint), "caps are six numbers");
    if (numbers) (*env)->GetIntArrayRegion(env, numbers, 0, 6, (jint *)&caps);
    if ((*env)->ExceptionCheck(env)) return NULL;
    dexkit_bytes *files = copy_all(env, arrays, &count);
    if (!(*env)->ExceptionCheck(env)) {
        if (fan >= 0)
            status = dexkit_merge(files, count, &caps, (size_t)fan, strip ? DEXKIT_STRIP : 0, &made, &fault);
        throw_fault(env, status, &fault);
    }
    free_all(files, count);
    return status == DEXKIT_OK ? array_of(env, &made) : NULL;
}

JNIEXPORT jlongArray JNICALL Java_Dexkit_count(JNIEnv *env, jclass self, jobjectArray arrays) {
    dexkit_counts counts = {0};
    dexkit_fault fault = {0};
    size_t count = 0;
    (void)self;
    _Static_assert(sizeof counts == 8 * sizeof(jlong), "counts are eight numbers");
    dexkit_bytes *files = copy_all(env, arrays, &count);
    if (!(*env)->ExceptionCheck(env)) throw_fault(env, dexkit_count(files, count, &counts, &fault), &fault);
    free_all(files, count);
    if ((*env)->ExceptionCheck(env)) return NULL;
    jlongArray found = (*env)->NewLongArray(env, 8);
    if (found) (*env)->SetLongArrayRegion(env, found, 0, 8, (const jlong *)&counts);
    return found;
}

struct list {
    JNIEnv *env;
    jobject list;
    jclass digest;
    jmethodID make, add;
};

static int add_digest(void *context, const uint8_t sha1[20], const char *name, size_t name_len) {
    struct list *to = context;
    JNIEnv *env = to->env;
    (void)name_len;
    jbyteArray bytes = (*env)->NewByteArray(env, 20);
    jstring text = bytes ? (*env)->NewStringUTF(env, name) : NULL;
    if (!text) return 1;
    (*env)->SetByteArrayRegion(env, bytes, 0, 20, (const jbyte *)sha1);
    jobject digest = (*env)->NewObject(env, to->digest, to->make, bytes, text);
    if (digest) (*env)->CallBooleanMethod(env, to->list, to->add, digest);
    (*env)->DeleteLocalRef(env, digest);
    (*env)->DeleteLocalRef(env, text);
    (*env)->DeleteLocalRef(env, bytes);
    return (*env)->ExceptionCheck(env);
}

JNIEXPORT void JNICALL Java_Dexkit_digests(JNIEnv *env, jclass self, jbyteArray array, jobject list) {
    struct list to = {env, list, (*env)->FindClass(env, "Dexkit$ClassDigest"), NULL, NULL};
    jclass type = (*env)->FindClass(env, "java/util/List");
    dexkit_fault fault = {0};
    (void)self;
    if (!to.digest || !type) return;
    to.make = (*env)->GetMethodID(env, to.digest, "<init>", "([BLjava/lang/String;)V");
    to.add = (*env)->GetMethodID(env, type, "add", "(Ljava/lang/Object;)Z");
    if (!to.make || !to.add) return;
    dexkit_bytes file = hold(env, array);
    if (!file.bytes) return;
    int status = dexkit_digests(file.bytes, file.len, add_digest, &to, &fault);
    release(env, array, file);
    throw_fault(env, status, &fault);
}
