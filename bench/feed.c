/* Feeds a worker with workflow tasks as fast as it takes them, over pipes: feed RUNS SECONDS COMMAND ..
   With RUNS above 0 it starts as many runs of the sample Nap, and then gives their next tasks, each with a
   signal, to the sticky polls, one run after the other, so that each finds its run where the worker caches
   as many. With RUNS 0 each poll gets the first task of a new run. It prints one line of figures. */
#include <stdio.h>
#include <stdlib.h>
#include <string.h>
#include <sys/resource.h>
#include <sys/wait.h>
#include <time.h>
#include <unistd.h>

enum { MOST_POLLS = 128, MOST_RUNS = 1000000, MOST_TASKS = 20000000, ROOM = 1 << 22 };
#define EVENT "{\"eventId\":\"%ld\",\"eventTime\":\"2024-05-01T10:00:00Z\",\"eventType\":\"EVENT_TYPE_"
#define STARTED EVENT "WORKFLOW_EXECUTION_STARTED\",\"workflowExecutionStartedEventAttributes\":{\"workflowType\":{\"name\":\"Nap\"}}},"
#define TASK EVENT "WORKFLOW_TASK_SCHEDULED\"}," EVENT "WORKFLOW_TASK_STARTED\"}"
#define COMPLETED EVENT "WORKFLOW_TASK_COMPLETED\"},"
#define TIMER EVENT "TIMER_STARTED\",\"timerStartedEventAttributes\":{\"timerId\":\"nap\"}},"
#define SIGNALED EVENT "WORKFLOW_EXECUTION_SIGNALED\",\"workflowExecutionSignaledEventAttributes\":{\"signalName\":\"s\"}},"
#define RESULT "{\"jsonrpc\":\"2.0\",\"id\":%ld,\"result\":"

struct polls {
    long ids[MOST_POLLS];
    int count;
};

static struct polls normal, sticky;
static char in[ROOM], out[ROOM];
static size_t held, unsent;
static int to_worker, is_over;
static long runs, begun, acknowledged, tasks, answers, misses, failures;
static long *last_event, *free_runs, free_first, free_count;
static struct { double given; long run; } *given;
static float *spent;
static double first_at;

static double now(void) {
    struct timespec time;
    clock_gettime(CLOCK_MONOTONIC, &time);
    return time.tv_sec + time.tv_nsec / 1e9;
}

static void flush_out(void) {
    for (size_t done = 0; done < unsent;) {
        ssize_t wrote = write(to_worker, out + done, unsent - done);
        if (wrote <= 0) break;
        done += wrote;
    }
    unsent = 0;
}

static void say_result(long id, const char *result) {
    unsent += sprintf(out + unsent, RESULT "%s}\n", id, result);
}

static void say_error(long id, int code) {
    unsent += sprintf(out + unsent, "{\"jsonrpc\":\"2.0\",\"id\":%ld,\"error\":{\"code\":%d,\"message\":\"\"}}\n", id, code);
}

/* What stands before the events of a task of a run. */
static void begin_task(long id, long run) {
    given[tasks].given = now();
    given[tasks].run = run;
    unsent += sprintf(out + unsent,
        RESULT "{\"taskToken\":\"%012ld\",\"workflowExecution\":{\"workflowId\":\"nap-%ld\",\"runId\":\"r\"},"
        "\"attempt\":1,\"history\":{\"events\":[", id, tasks++, run);
}

static void end_task(void) {
    unsent += sprintf(out + unsent, "]}}}\n");
    if (unsent > ROOM / 2) flush_out();
}

static void give_first(long id) {
    long run = begun++;
    begin_task(id, run);
    unsent += sprintf(out + unsent, STARTED TASK, 1L, 2L, 3L);
    if (runs) last_event[run] = 3;
    end_task();
}

static void give_next(long id) {
    long run = free_runs[free_first], event = last_event[run];
    free_first = (free_first + 1) % runs;
    free_count--;
    begin_task(id, run);
    unsent += sprintf(out + unsent, COMPLETED, event + 1);
    if (event == 3) unsent += sprintf(out + unsent, TIMER, ++event + 1);
    unsent += sprintf(out + unsent, SIGNALED TASK, event + 2, event + 3, event + 4);
    last_event[run] = event + 4;
    end_task();
}

/* Gives tasks to the polls that wait, as far as there are tasks for them. */
static void give(void) {
    if (is_over || tasks >= MOST_TASKS - MOST_POLLS) return;
    while (normal.count && (runs == 0 || begun < runs)) give_first(normal.ids[--normal.count]);
    if (runs && acknowledged < runs) return;
    if (!first_at) first_at = now();
    while (sticky.count && free_count) give_next(sticky.ids[--sticky.count]);
}

static void take_answer(long id, const char *line) {
    long task = atol(strstr(line, "\"taskToken\":\"") + 13);
    say_result(id, "{}");
    if (first_at) spent[answers++] = now() - given[task].given;
    acknowledged++;
    if (runs) free_runs[(free_first + free_count++) % runs] = given[task].run;
}

static void take(const char *line) {
    long id = atol(strstr(line, "\"id\":") + 5);
    const char *method = strstr(line, "\"method\":\"") + 10;
    if (!strncmp(method, "PollWorkflowTaskQueue", 21)) {
        struct polls *polls = strstr(method, "KIND_STICKY") ? &sticky : &normal;
        if (is_over) say_error(id, 1);
        else polls->ids[polls->count++] = id;
    } else if (!strncmp(method, "RespondWorkflowTaskCompleted", 28)) {
        take_answer(id, line);
    } else if (!strncmp(method, "ShutdownWorker", 14)) {
        say_result(id, "{}");
    } else {
        if (!strncmp(method, "GetWorkflow", 11)) misses++;
        else failures++;
        say_error(id, 5);
    }
}

static void shut_down(void) {
    is_over = 1;
    unsent += sprintf(out + unsent, "{\"jsonrpc\":\"2.0\",\"method\":\"shutdown\"}\n");
    while (normal.count) say_error(normal.ids[--normal.count], 1);
    while (sticky.count) say_error(sticky.ids[--sticky.count], 1);
}

static int compare(const void *one, const void *other) {
    float a = *(const float *)one, b = *(const float *)other;
    return (a > b) - (a < b);
}

static pid_t start(char **command, int *from_worker) {
    int to[2], from[2];
    if (pipe(to) || pipe(from)) exit(1);
    pid_t child = fork();
    if (!child) {
        dup2(to[0], 0);
        dup2(from[1], 1);
        close(to[0]), close(to[1]), close(from[0]), close(from[1]);
        execvp(command[0], command);
        _exit(127);
    }
    close(to[0]), close(from[1]);
    to_worker = to[1], *from_worker = from[0];
    return child;
}

int main(int count, char **words) {
    if (count < 4 || (runs = atol(words[1])) > MOST_RUNS) return 2;
    double seconds = atof(words[2]), ended = 0;
    last_event = calloc(runs + 1, sizeof *last_event);
    free_runs = calloc(runs + 1, sizeof *free_runs);
    given = malloc(MOST_TASKS * sizeof *given);
    spent = malloc(MOST_TASKS * sizeof *spent);
    int from_worker, status;
    pid_t child = start(words + 3, &from_worker);
    for (ssize_t got; (got = read(from_worker, in + held, ROOM - held - 1)) > 0;) {
        held += got;
        char *line = in, *end;
        for (; (end = memchr(line, '\n', in + held - line)); line = end + 1) {
            *end = 0;
            take(line);
        }
        held -= line - in;
        memmove(in, line, held);
        give();
        if (!is_over && first_at && now() - first_at > seconds) ended = now(), shut_down();
        flush_out();
    }
    struct rusage used;
    wait4(child, &status, 0, &used);
    if (!answers || !ended) return fprintf(stderr, "no answers, status %d\n", status), 1;
    qsort(spent, answers, sizeof *spent, compare);
    double processor = used.ru_utime.tv_sec + used.ru_stime.tv_sec + (used.ru_utime.tv_usec + used.ru_stime.tv_usec) / 1e6;
    printf("tasks %ld seconds %.3f median %.0f last %.0f misses %ld failures %ld processor %.2f memory %.1f status %d\n",
        answers, ended - first_at, spent[answers / 2] * 1e6, spent[answers * 99 / 100] * 1e6, misses, failures,
        processor, used.ru_maxrss / 1024.0, WEXITSTATUS(status));
    return 0;
}
