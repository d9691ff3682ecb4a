// Threads, virtual calls, new and delete, a local static object and thread-local variables.
#include "shapes.h"
#include <new>
#include <pthread.h>
#include <semaphore.h>
#include <stdio.h>
#include <stdlib.h>
#include <time.h>
#include <unistd.h>

static pthread_mutex_t mutex = PTHREAD_MUTEX_INITIALIZER;
static thread_local int own = 5;

static void *work(void *side) {
    int *given = static_cast<int *>(side);
    own += *given;
    pthread_mutex_lock(&mutex);
    shared_pile().add(new Square(own));
    pthread_mutex_unlock(&mutex);
    delete given;
    return nullptr;
}

int main() {
    enum { THREADS = 6 };
    pthread_t threads[THREADS];
    for (int i = 0; i < THREADS; i++) pthread_create(&threads[i], nullptr, work, new int(i));
    for (pthread_t thread : threads) pthread_join(thread, nullptr);
    alignas(Square) char place[sizeof(Square)];
    Square *placed = new (place) Square(3);
    int *none = new (std::nothrow) int[4]();
    printf("%d, %d, %d, own %d\n", shared_pile().area(), placed->area(), none ? none[3] : -1, own);
    delete[] none;
    return 0;
}
