// A shell over SpiderMonkey's library, for a machine that has libmozjs-102 and no `js`: js SCRIPT .. < plans
// It has what the host file needs: print, printErr, quit, readline, gc, setTimeout (without a time). And it has `slice`, a
// step of a collection, for ../slices.js. A cleanup of a FinalizationRegistry
// is a job of its own, as is each function that setTimeout is given; after each job KeptAlive is cleared.
#include <cstdio>
#include <cstdlib>
#include <deque>
#include <iostream>
#include <string>

#include "jsapi.h"
#include "jsfriendapi.h"
#include "js/CompilationAndEvaluation.h"
#include "js/Conversions.h"
#include "js/GCAPI.h"
#include "js/Initialization.h"
#include "js/SliceBudget.h"
#include "js/SourceText.h"

static std::deque<JS::PersistentRooted<JSObject*>> jobs;

static void Later(JSContext* cx, JSObject* job) { jobs.emplace_back(cx, job); }

static bool PrintOn(FILE* file, JSContext* cx, JS::CallArgs args) {
  JS::RootedString text(cx, JS::ToString(cx, args.get(0)));
  JS::UniqueChars line = text ? JS_EncodeStringToUTF8(cx, text) : nullptr;
  if (!line) return false;
  fprintf(file, "%s\n", line.get());
  fflush(file);
  args.rval().setUndefined();
  return true;
}
static bool Print(JSContext* cx, unsigned argc, JS::Value* vp) { return PrintOn(stdout, cx, JS::CallArgsFromVp(argc, vp)); }
static bool PrintErr(JSContext* cx, unsigned argc, JS::Value* vp) { return PrintOn(stderr, cx, JS::CallArgsFromVp(argc, vp)); }
static bool Quit(JSContext* cx, unsigned argc, JS::Value* vp) {
  int32_t status = 0;
  if (!JS::ToInt32(cx, JS::CallArgsFromVp(argc, vp).get(0), &status)) return false;
  std::_Exit(status);
}
static bool ReadLine(JSContext* cx, unsigned argc, JS::Value* vp) {
  JS::CallArgs args = JS::CallArgsFromVp(argc, vp);
  std::string line;
  args.rval().setNull();
  if (!std::getline(std::cin, line)) return true;
  JSString* text = JS_NewStringCopyN(cx, line.data(), line.size());
  if (text) args.rval().setString(text);
  return text;
}
// Ends a collection that goes by slices, if there is one.
static bool Finish(JSContext* cx) {
  bool going = JS::IsIncrementalGCInProgress(cx);
  if (going) {
    JS::PrepareForIncrementalGC(cx);
    JS::FinishIncrementalGC(cx, JS::GCReason::API);
  }
  return going;
}
static bool Collect(JSContext* cx, unsigned argc, JS::Value* vp) {
  Finish(cx);
  JS::PrepareForFullGC(cx);
  JS::NonIncrementalGC(cx, JS::GCOptions::Normal, JS::GCReason::API);
  JS::CallArgsFromVp(argc, vp).rval().setUndefined();
  return true;
}
// A number below another, drawn from one seed.
static unsigned Draw(unsigned below) {
  static unsigned drawn = 12345;
  drawn = drawn * 1103515245u + 12345u;
  return (drawn >> 16) % below;
}
// A collection by slices begins, goes on by a few cells, or is ended. Which of these is drawn.
static bool Slice(JSContext* cx, unsigned argc, JS::Value* vp) {
  JS::CallArgsFromVp(argc, vp).rval().setUndefined();
  bool going = JS::IsIncrementalGCInProgress(cx);
  if (going && Draw(12) == 0) return Finish(cx);
  js::SliceBudget budget{js::WorkBudget(going ? 1 + Draw(40) : 1)};
  if (going) {
    JS::PrepareForIncrementalGC(cx);
    JS::IncrementalGCSlice(cx, JS::GCReason::API, budget);
  } else if (Draw(5) == 0) {
    JS::PrepareForFullGC(cx);
    JS::StartIncrementalGC(cx, JS::GCOptions::Normal, JS::GCReason::API, budget);
  }
  return true;
}
static bool SetTimeout(JSContext* cx, unsigned argc, JS::Value* vp) {
  JS::CallArgs args = JS::CallArgsFromVp(argc, vp);
  if (!args.get(0).isObject()) return false;
  Later(cx, &args[0].toObject());
  args.rval().setUndefined();
  return true;
}
static void Cleanup(JSFunction* clean, JSObject*, void* cx) {
  Later(static_cast<JSContext*>(cx), JS_GetFunctionObject(clean));
}
// An error is told, but for one that the interpreter throws out of a callback.
static void End(JSContext* cx, bool well) {
  JS::RootedValue error(cx);
  if (!well && JS_GetPendingException(cx, &error)) {
    JS_ClearPendingException(cx);
    JS::RootedString text(cx, JS::ToString(cx, error));
    JS::UniqueChars line = text ? JS_EncodeStringToUTF8(cx, text) : nullptr;
    fprintf(stderr, "%s\n", line ? line.get() : "an error without a text");
  }
  js::RunJobs(cx);
  JS::ClearKeptObjects(cx);
}
static const JSClass globalClass = {"global", JSCLASS_GLOBAL_FLAGS, &JS::DefaultGlobalClassOps};
static const JSFunctionSpec functions[] = {
    JS_FN("print", Print, 1, 0), JS_FN("printErr", PrintErr, 1, 0), JS_FN("quit", Quit, 1, 0), JS_FN("readline", ReadLine, 0, 0), JS_FN("gc", Collect, 0, 0), JS_FN("slice", Slice, 0, 0),
    JS_FN("setTimeout", SetTimeout, 1, 0), JS_FS_END};

int main(int argc, char** argv) {
  if (!JS_Init()) return 2;
  if (argc == 1) return puts(JS_GetImplementationVersion()) < 0;
  JSContext* cx = JS_NewContext(JS::DefaultHeapMaxBytes);
  if (!cx || !js::UseInternalJobQueues(cx) || !JS::InitSelfHostedCode(cx)) return 2;
  JS_SetGCParameter(cx, JSGC_INCREMENTAL_GC_ENABLED, 1);
  JS::SetHostCleanupFinalizationRegistryCallback(cx, Cleanup, cx);
  {
    JS::RealmOptions options;
    options.creationOptions().setSharedMemoryAndAtomicsEnabled(true);
    options.creationOptions().setWeakRefsEnabled(JS::WeakRefSpecifier::EnabledWithoutCleanupSome);
    JS::RootedObject global(cx, JS_NewGlobalObject(cx, &globalClass, nullptr, JS::FireOnNewGlobalHook, options));
    JSAutoRealm realm(cx, global);
    if (!JS_DefineFunctions(cx, global, functions)) return 2;
    for (int at = 1; at < argc; at++) {
      JS::RootedValue ignored(cx);
      JS::CompileOptions plain(cx);
      End(cx, JS::EvaluateUtf8Path(cx, plain, argv[at], &ignored));
    }
    while (!jobs.empty()) {
      JS::RootedValue job(cx, JS::ObjectValue(*jobs.front())), ignored(cx);
      jobs.pop_front();
      End(cx, JS_CallFunctionValue(cx, nullptr, job, JS::HandleValueArray::empty(), &ignored));
    }
  }
  JS_DestroyContext(cx);
  JS_ShutDown();
}
