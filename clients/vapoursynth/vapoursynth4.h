/* The part of VapourSynth's interface for plugins, version 4, that wokureti.c uses, declared anew after its API 4
 * (vapoursynth.com/doc/api/vapoursynth4.h.html): the names are VapourSynth's, and a member that is not used is a gap. Where the compiler
 * finds VapourSynth's own header, that one is taken, and this file declares nothing. */
#ifndef WOKURETI_VAPOURSYNTH4_H
#define WOKURETI_VAPOURSYNTH4_H

#if defined(__has_include)
#if __has_include(<VapourSynth4.h>)
#define WOKURETI_HAS_VAPOURSYNTH
#endif
#endif

#ifdef WOKURETI_HAS_VAPOURSYNTH
#include <VapourSynth4.h>
#else

#include <stddef.h>
#include <stdint.h>

#define VS_MAKE_VERSION(major, minor) (((major) << 16) | (minor))
#define VAPOURSYNTH_API_VERSION VS_MAKE_VERSION(4, 0)
#define VS_CC

typedef struct VSFrame VSFrame;
typedef struct VSNode VSNode;
typedef struct VSCore VSCore;
typedef struct VSPlugin VSPlugin;
typedef struct VSMap VSMap;
typedef struct VSFrameContext VSFrameContext;
typedef struct VSFilterDependency VSFilterDependency;
typedef struct VSAPI VSAPI;

typedef enum VSColorFamily { cfUndefined = 0, cfGray = 1, cfRGB = 2, cfYUV = 3 } VSColorFamily;
typedef enum VSSampleType { stInteger = 0, stFloat = 1 } VSSampleType;
/* How many frames of a filter are asked for at a time: with fmUnordered one, in any order. */
typedef enum VSFilterMode { fmParallel = 0, fmParallelRequests = 1, fmUnordered = 2, fmFrameState = 3 } VSFilterMode;
typedef enum VSActivationReason { arInitial = 0, arAllFramesReady = 1, arError = -1 } VSActivationReason;
typedef enum VSMapAppendMode { maReplace = 0, maAppend = 1 } VSMapAppendMode;
typedef enum VSDataTypeHint { dtUnknown = -1, dtBinary = 0, dtUtf8 = 1 } VSDataTypeHint;

typedef struct VSVideoFormat {
    int colorFamily, sampleType, bitsPerSample, bytesPerSample, subSamplingW, subSamplingH, numPlanes;
} VSVideoFormat;

typedef struct VSVideoInfo {
    VSVideoFormat format;
    int64_t fpsNum, fpsDen;
    int width, height, numFrames;
} VSVideoInfo;

typedef const VSFrame *(VS_CC *VSFilterGetFrame)(int n, int activationReason, void *instanceData, void **frameData, VSFrameContext *frameCtx, VSCore *core, const VSAPI *vsapi);
typedef void(VS_CC *VSFilterFree)(void *instanceData, VSCore *core, const VSAPI *vsapi);
typedef void(VS_CC *VSPublicFunction)(const VSMap *in, VSMap *out, void *userData, VSCore *core, const VSAPI *vsapi);

typedef struct VSPLUGINAPI {
    int(VS_CC *getAPIVersion)(void);
    int(VS_CC *configPlugin)(const char *identifier, const char *pluginNamespace, const char *name, int pluginVersion, int apiVersion, int flags, VSPlugin *plugin);
    int(VS_CC *registerFunction)(const char *name, const char *args, const char *returnType, VSPublicFunction argsFunc, void *functionData, VSPlugin *plugin);
} VSPLUGINAPI;

/* The functions of the core. A gap has as many functions as there are between those that it is between. */
typedef void(VS_CC *VSUnused)(void);

struct VSAPI {
    void(VS_CC *createVideoFilter)(VSMap *out, const char *name, const VSVideoInfo *vi, VSFilterGetFrame getFrame, VSFilterFree free, int filterMode,
                                   const VSFilterDependency *dependencies, int numDeps, void *instanceData, VSCore *core);
    VSUnused nodes[11]; /* the other four of making filters, caches, references to nodes, what a node is */
    VSFrame *(VS_CC *newVideoFrame)(const VSVideoFormat *format, int width, int height, const VSFrame *propSrc, VSCore *core);
    VSUnused frames[3];
    void(VS_CC *freeFrame)(const VSFrame *f);
    VSUnused references[2];
    const VSMap *(VS_CC *getFramePropertiesRO)(const VSFrame *f);
    VSMap *(VS_CC *getFramePropertiesRW)(VSFrame *f);
    ptrdiff_t(VS_CC *getStride)(const VSFrame *f, int plane);
    const uint8_t *(VS_CC *getReadPtr)(const VSFrame *f, int plane);
    uint8_t *(VS_CC *getWritePtr)(VSFrame *f, int plane);
    VSUnused sizes[6];
    VSUnused names[2];
    int(VS_CC *queryVideoFormat)(VSVideoFormat *format, int colorFamily, int sampleType, int bitsPerSample, int subSamplingW, int subSamplingH, VSCore *core);
    VSUnused formats[3];
    VSUnused requests[6];
    void(VS_CC *setFilterError)(const char *errorMessage, VSFrameContext *frameCtx);
    VSUnused functions[4];
    VSUnused maps[4];
    void(VS_CC *mapSetError)(VSMap *map, const char *errorMessage);
    const char *(VS_CC *mapGetError)(const VSMap *map);
    VSUnused keys[3];
    int(VS_CC *mapNumElements)(const VSMap *map, const char *key);
    VSUnused types[2];
    int64_t(VS_CC *mapGetInt)(const VSMap *map, const char *key, int index, int *error);
    VSUnused integers[2];
    int(VS_CC *mapSetInt)(VSMap *map, const char *key, int64_t i, int append);
    VSUnused numbers[4];
    int(VS_CC *mapSetFloat)(VSMap *map, const char *key, double d, int append);
    VSUnused floats;
    const char *(VS_CC *mapGetData)(const VSMap *map, const char *key, int index, int *error);
    VSUnused hints[2];
    int(VS_CC *mapSetData)(VSMap *map, const char *key, const char *data, int size, int type, int append);
    /* Nodes, frames and functions in maps, plugins and the core follow. */
};

/* The number of each function in the documented order. */
#define WOKURETI_IS_AT(member, number) _Static_assert(offsetof(VSAPI, member) == (number) * sizeof(VSUnused), #member " is another function")
WOKURETI_IS_AT(createVideoFilter, 0);
WOKURETI_IS_AT(newVideoFrame, 12);
WOKURETI_IS_AT(freeFrame, 16);
WOKURETI_IS_AT(getFramePropertiesRW, 20);
WOKURETI_IS_AT(getStride, 21);
WOKURETI_IS_AT(getWritePtr, 23);
WOKURETI_IS_AT(queryVideoFormat, 32);
WOKURETI_IS_AT(setFilterError, 42);
WOKURETI_IS_AT(mapSetError, 51);
WOKURETI_IS_AT(mapNumElements, 56);
WOKURETI_IS_AT(mapGetInt, 59);
WOKURETI_IS_AT(mapSetInt, 62);
WOKURETI_IS_AT(mapSetFloat, 67);
WOKURETI_IS_AT(mapGetData, 69);
WOKURETI_IS_AT(mapSetData, 72);

#endif
#endif
