// Prints the least milliseconds, of three, in which SpiderMonkey compiles the script of a file, its functions too.
#include <cstdio>
#include <fstream>
#include <sstream>
#include <string>
#include <time.h>
#include <js/CompilationAndEvaluation.h>
#include <js/CompileOptions.h>
#include <js/GlobalObject.h>
#include <js/Initialization.h>
#include <js/RealmOptions.h>
#include <js/SourceText.h>
#include <jsapi.h>

static JSClass global = {"global", JSCLASS_GLOBAL_FLAGS, &JS::DefaultGlobalClassOps};

static double now() {
  timespec time;
  clock_gettime(CLOCK_PROCESS_CPUTIME_ID, &time);
  return time.tv_sec * 1e3 + time.tv_nsec / 1e6;
}

int main(int, char **arguments) {
  std::ifstream file(arguments[1]);
  std::stringstream read;
  read << file.rdbuf();
  std::string text = read.str();
  JS_Init();
  JSContext *context = JS_NewContext(1u << 30);
  JS_SetNativeStackQuota(context, 400u << 20);
  JS::InitSelfHostedCode(context);
  JS::RealmOptions realm;
  JS::RootedObject object(context, JS_NewGlobalObject(context, &global, nullptr, JS::FireOnNewGlobalHook, realm));
  JSAutoRealm within(context, object);
  double best = 1e9;
  for (int turn = 0; turn < 3; turn++) {
    JS::CompileOptions options(context);
    options.setFileAndLine("text", 1);
    options.setForceFullParse();
    JS::SourceText<mozilla::Utf8Unit> source;
    if (!source.init(context, text.c_str(), text.size(), JS::SourceOwnership::Borrowed)) return 1;
    double begin = now();
    JS::RootedScript script(context, JS::Compile(context, options, source));
    double spent = now() - begin;
    if (!script) return 1;
    if (spent < best) best = spent;
  }
  printf("%.3f\n", best);
  fflush(stdout);
  _Exit(0);
}
