"""Temporal's messages, trimmed to what a worker of this host and the stand-in write, as protobuf definitions.

The numbers of fields and of enum values are meant to be those of Temporal's published API (github.com/temporalio/api);
they were written from memory and not compared with a copy of it. Only the stand-in rests on them: the bridge takes
Temporal's own package where it meets a server. On the wire nothing else of a definition is seen, so all stand in one
package here.

A line is a message: its name, then its fields, each `name number type`, with `*` before the type where it is repeated and
`name number >type` where it is a map from texts. Types without a capital are those of protobuf. A line that begins with
spaces goes on with the one before.
"""

from google.protobuf import descriptor_pb2, descriptor_pool, duration_pb2, message_factory, timestamp_pb2

PACKAGE = "standin"
SERVICE = "/temporal.api.workflowservice.v1.WorkflowService/"

ENUMS = """
TaskQueueKind TASK_QUEUE_KIND_ UNSPECIFIED NORMAL STICKY
QueryResultType QUERY_RESULT_TYPE_ UNSPECIFIED ANSWERED FAILED
TimeoutType TIMEOUT_TYPE_ UNSPECIFIED START_TO_CLOSE SCHEDULE_TO_START SCHEDULE_TO_CLOSE HEARTBEAT
WorkflowExecutionStatus WORKFLOW_EXECUTION_STATUS_ UNSPECIFIED RUNNING COMPLETED FAILED CANCELED TERMINATED
    CONTINUED_AS_NEW TIMED_OUT
UpdateStage UPDATE_WORKFLOW_EXECUTION_LIFECYCLE_STAGE_ UNSPECIFIED ADMITTED ACCEPTED COMPLETED
ParentClosePolicy PARENT_CLOSE_POLICY_ UNSPECIFIED TERMINATE ABANDON REQUEST_CANCEL
WorkflowIdReusePolicy WORKFLOW_ID_REUSE_POLICY_ UNSPECIFIED ALLOW_DUPLICATE ALLOW_DUPLICATE_FAILED_ONLY
    REJECT_DUPLICATE TERMINATE_IF_RUNNING
RetryState RETRY_STATE_ UNSPECIFIED IN_PROGRESS NON_RETRYABLE_FAILURE TIMEOUT
StartFailedCause START_CHILD_WORKFLOW_EXECUTION_FAILED_CAUSE_ UNSPECIFIED WORKFLOW_ALREADY_EXISTS
CancelFailedCause CANCEL_EXTERNAL_WORKFLOW_EXECUTION_FAILED_CAUSE_ UNSPECIFIED EXTERNAL_WORKFLOW_EXECUTION_NOT_FOUND
SignalFailedCause SIGNAL_EXTERNAL_WORKFLOW_EXECUTION_FAILED_CAUSE_ UNSPECIFIED EXTERNAL_WORKFLOW_EXECUTION_NOT_FOUND
WorkflowTaskFailedCause WORKFLOW_TASK_FAILED_CAUSE_ UNSPECIFIED UNHANDLED_COMMAND BAD_SCHEDULE_ACTIVITY_ATTRIBUTES
    14 WORKFLOW_WORKER_UNHANDLED_FAILURE 17 FORCE_CLOSE_COMMAND 24 NON_DETERMINISTIC_ERROR 36 GRPC_MESSAGE_TOO_LARGE
CommandType COMMAND_TYPE_ UNSPECIFIED SCHEDULE_ACTIVITY_TASK REQUEST_CANCEL_ACTIVITY_TASK START_TIMER
    COMPLETE_WORKFLOW_EXECUTION FAIL_WORKFLOW_EXECUTION CANCEL_TIMER CANCEL_WORKFLOW_EXECUTION
    REQUEST_CANCEL_EXTERNAL_WORKFLOW_EXECUTION RECORD_MARKER CONTINUE_AS_NEW_WORKFLOW_EXECUTION
    START_CHILD_WORKFLOW_EXECUTION SIGNAL_EXTERNAL_WORKFLOW_EXECUTION
EventType EVENT_TYPE_ UNSPECIFIED WORKFLOW_EXECUTION_STARTED WORKFLOW_EXECUTION_COMPLETED WORKFLOW_EXECUTION_FAILED
    WORKFLOW_EXECUTION_TIMED_OUT WORKFLOW_TASK_SCHEDULED WORKFLOW_TASK_STARTED WORKFLOW_TASK_COMPLETED
    WORKFLOW_TASK_TIMED_OUT WORKFLOW_TASK_FAILED ACTIVITY_TASK_SCHEDULED ACTIVITY_TASK_STARTED
    ACTIVITY_TASK_COMPLETED ACTIVITY_TASK_FAILED ACTIVITY_TASK_TIMED_OUT ACTIVITY_TASK_CANCEL_REQUESTED
    ACTIVITY_TASK_CANCELED TIMER_STARTED TIMER_FIRED TIMER_CANCELED WORKFLOW_EXECUTION_CANCEL_REQUESTED
    WORKFLOW_EXECUTION_CANCELED REQUEST_CANCEL_EXTERNAL_WORKFLOW_EXECUTION_INITIATED
    REQUEST_CANCEL_EXTERNAL_WORKFLOW_EXECUTION_FAILED EXTERNAL_WORKFLOW_EXECUTION_CANCEL_REQUESTED MARKER_RECORDED
    WORKFLOW_EXECUTION_SIGNALED WORKFLOW_EXECUTION_TERMINATED WORKFLOW_EXECUTION_CONTINUED_AS_NEW
    START_CHILD_WORKFLOW_EXECUTION_INITIATED START_CHILD_WORKFLOW_EXECUTION_FAILED CHILD_WORKFLOW_EXECUTION_STARTED
    CHILD_WORKFLOW_EXECUTION_COMPLETED CHILD_WORKFLOW_EXECUTION_FAILED CHILD_WORKFLOW_EXECUTION_CANCELED
    CHILD_WORKFLOW_EXECUTION_TIMED_OUT CHILD_WORKFLOW_EXECUTION_TERMINATED
    SIGNAL_EXTERNAL_WORKFLOW_EXECUTION_INITIATED SIGNAL_EXTERNAL_WORKFLOW_EXECUTION_FAILED
    EXTERNAL_WORKFLOW_EXECUTION_SIGNALED
"""

MESSAGES = """
Payload metadata 1 >bytes, data 2 bytes
Payloads payloads 1 *Payload
WorkflowExecution workflow_id 1 string, run_id 2 string
WorkflowType name 1 string
ActivityType name 1 string
RetryPolicy initial_interval 1 Duration, backoff_coefficient 2 double, maximum_interval 3 Duration, maximum_attempts 4
    int32, non_retryable_error_types 5 *string
Memo fields 1 >Payload
Header fields 1 >Payload
SearchAttributes indexed_fields 1 >Payload
TaskQueue name 1 string, kind 2 TaskQueueKind, normal_name 3 string
ApplicationFailureInfo type 1 string, non_retryable 2 bool
TimeoutFailureInfo timeout_type 1 TimeoutType
Failure message 1 string, source 2 string, application_failure_info 5 ApplicationFailureInfo, timeout_failure_info 6
    TimeoutFailureInfo
StickyExecutionAttributes worker_task_queue 1 TaskQueue, schedule_to_start_timeout 2 Duration
WorkflowQuery query_type 1 string, query_args 2 Payloads
WorkflowQueryResult result_type 1 QueryResultType, answer 2 Payloads, error_message 3 string

ScheduleActivityTaskCommandAttributes activity_id 1 string, activity_type 2 ActivityType, task_queue 4 TaskQueue,
    header 5 Header, input 6 Payloads, schedule_to_close_timeout 7 Duration, schedule_to_start_timeout 8 Duration,
    start_to_close_timeout 9 Duration, heartbeat_timeout 10 Duration, retry_policy 11 RetryPolicy
RequestCancelActivityTaskCommandAttributes scheduled_event_id 1 int64
StartTimerCommandAttributes timer_id 1 string, start_to_fire_timeout 2 Duration
CompleteWorkflowExecutionCommandAttributes result 1 Payloads
FailWorkflowExecutionCommandAttributes failure 1 Failure
CancelTimerCommandAttributes timer_id 1 string
CancelWorkflowExecutionCommandAttributes details 1 Payloads
RequestCancelExternalWorkflowExecutionCommandAttributes namespace 1 string, workflow_id 2 string, run_id 3 string,
    child_workflow_only 5 bool
SignalExternalWorkflowExecutionCommandAttributes namespace 1 string, execution 2 WorkflowExecution, signal_name 3
    string, input 4 Payloads
RecordMarkerCommandAttributes marker_name 1 string, details 2 >Payloads
ContinueAsNewWorkflowExecutionCommandAttributes workflow_type 1 WorkflowType, task_queue 2 TaskQueue, input 3
    Payloads, workflow_run_timeout 4 Duration, workflow_task_timeout 5 Duration, retry_policy 7 RetryPolicy, memo 13 Memo, search_attributes 14 SearchAttributes
StartChildWorkflowExecutionCommandAttributes namespace 1 string, workflow_id 2 string, workflow_type 3 WorkflowType,
    task_queue 4 TaskQueue, input 5 Payloads, workflow_execution_timeout 6 Duration, workflow_run_timeout 7 Duration,
    workflow_task_timeout 8 Duration, parent_close_policy 9 ParentClosePolicy, workflow_id_reuse_policy 11
    WorkflowIdReusePolicy, retry_policy 12 RetryPolicy, header 14 Header
Command command_type 1 CommandType, schedule_activity_task_command_attributes 2
    ScheduleActivityTaskCommandAttributes, start_timer_command_attributes 3 StartTimerCommandAttributes,
    complete_workflow_execution_command_attributes 4 CompleteWorkflowExecutionCommandAttributes,
    fail_workflow_execution_command_attributes 5 FailWorkflowExecutionCommandAttributes,
    request_cancel_activity_task_command_attributes 6 RequestCancelActivityTaskCommandAttributes,
    cancel_timer_command_attributes 7 CancelTimerCommandAttributes, cancel_workflow_execution_command_attributes 8
    CancelWorkflowExecutionCommandAttributes, request_cancel_external_workflow_execution_command_attributes 9
    RequestCancelExternalWorkflowExecutionCommandAttributes, record_marker_command_attributes 10
    RecordMarkerCommandAttributes, continue_as_new_workflow_execution_command_attributes 11
    ContinueAsNewWorkflowExecutionCommandAttributes, start_child_workflow_execution_command_attributes 12
    StartChildWorkflowExecutionCommandAttributes, signal_external_workflow_execution_command_attributes 13
    SignalExternalWorkflowExecutionCommandAttributes

WorkflowExecutionStartedEventAttributes workflow_type 1 WorkflowType, parent_workflow_execution 3 WorkflowExecution,
    parent_initiated_event_id 4 int64, task_queue 5 TaskQueue, input 6 Payloads, continued_execution_run_id 10
    string, original_execution_run_id 14 string, retry_policy 17 RetryPolicy, attempt 18 int32, memo 22 Memo,
    search_attributes 23 SearchAttributes, header 25 Header, workflow_id 28 string
WorkflowExecutionCompletedEventAttributes result 1 Payloads, workflow_task_completed_event_id 2 int64
WorkflowExecutionFailedEventAttributes failure 1 Failure, workflow_task_completed_event_id 3 int64
WorkflowExecutionTimedOutEventAttributes retry_state 1 RetryState
WorkflowTaskScheduledEventAttributes task_queue 1 TaskQueue, start_to_close_timeout 2 Duration, attempt 3 int32
WorkflowTaskStartedEventAttributes scheduled_event_id 1 int64, identity 2 string
WorkflowTaskCompletedEventAttributes scheduled_event_id 1 int64, started_event_id 2 int64
WorkflowTaskTimedOutEventAttributes scheduled_event_id 1 int64, started_event_id 2 int64, timeout_type 3 TimeoutType
WorkflowTaskFailedEventAttributes scheduled_event_id 1 int64, started_event_id 2 int64, cause 3
    WorkflowTaskFailedCause, failure 4 Failure
ActivityTaskScheduledEventAttributes activity_id 1 string, activity_type 2 ActivityType, task_queue 4 TaskQueue,
    header 5 Header, input 6 Payloads, schedule_to_close_timeout 7 Duration, schedule_to_start_timeout 8 Duration,
    start_to_close_timeout 9 Duration, heartbeat_timeout 10 Duration, workflow_task_completed_event_id 11 int64,
    retry_policy 12 RetryPolicy
ActivityTaskStartedEventAttributes scheduled_event_id 1 int64, attempt 4 int32
ActivityTaskCompletedEventAttributes result 1 Payloads, scheduled_event_id 2 int64, started_event_id 3 int64
ActivityTaskFailedEventAttributes failure 1 Failure, scheduled_event_id 2 int64, started_event_id 3 int64
ActivityTaskTimedOutEventAttributes failure 1 Failure, scheduled_event_id 2 int64, started_event_id 3 int64
TimerStartedEventAttributes timer_id 1 string, start_to_fire_timeout 2 Duration, workflow_task_completed_event_id 3
    int64
TimerFiredEventAttributes timer_id 1 string, started_event_id 2 int64
ActivityTaskCancelRequestedEventAttributes scheduled_event_id 1 int64, workflow_task_completed_event_id 2 int64
ActivityTaskCanceledEventAttributes details 1 Payloads, latest_cancel_requested_event_id 2 int64, scheduled_event_id 3
    int64, started_event_id 4 int64
TimerCanceledEventAttributes timer_id 1 string, started_event_id 2 int64, workflow_task_completed_event_id 3 int64
MarkerRecordedEventAttributes marker_name 1 string, details 2 >Payloads, workflow_task_completed_event_id 3 int64
WorkflowExecutionSignaledEventAttributes signal_name 1 string, input 2 Payloads, header 4 Header
WorkflowExecutionTerminatedEventAttributes reason 1 string
WorkflowExecutionCancelRequestedEventAttributes cause 1 string
WorkflowExecutionCanceledEventAttributes workflow_task_completed_event_id 1 int64
RequestCancelExternalWorkflowExecutionInitiatedEventAttributes workflow_task_completed_event_id 1 int64, namespace 2
    string, workflow_execution 3 WorkflowExecution, child_workflow_only 5 bool
RequestCancelExternalWorkflowExecutionFailedEventAttributes cause 1 CancelFailedCause, workflow_execution 4
    WorkflowExecution, initiated_event_id 5 int64
ExternalWorkflowExecutionCancelRequestedEventAttributes initiated_event_id 1 int64, workflow_execution 3
    WorkflowExecution
WorkflowExecutionContinuedAsNewEventAttributes new_execution_run_id 1 string, workflow_type 2 WorkflowType,
    task_queue 3 TaskQueue, input 4 Payloads, workflow_run_timeout 5 Duration, workflow_task_timeout 6 Duration,
    workflow_task_completed_event_id 7 int64, memo 13 Memo,
    search_attributes 14 SearchAttributes
StartChildWorkflowExecutionInitiatedEventAttributes namespace 1 string, workflow_id 2 string, workflow_type 3
    WorkflowType, task_queue 4 TaskQueue, input 5 Payloads, workflow_execution_timeout 6 Duration,
    workflow_run_timeout 7 Duration, workflow_task_timeout 8 Duration, parent_close_policy 9 ParentClosePolicy,
    workflow_task_completed_event_id 11 int64, workflow_id_reuse_policy 12 WorkflowIdReusePolicy, retry_policy 13
    RetryPolicy, header 15 Header
StartChildWorkflowExecutionFailedEventAttributes workflow_id 2 string, workflow_type 3 WorkflowType, cause 4
    StartFailedCause, initiated_event_id 6 int64
ChildWorkflowExecutionStartedEventAttributes initiated_event_id 2 int64, workflow_execution 3 WorkflowExecution,
    workflow_type 4 WorkflowType
ChildWorkflowExecutionCompletedEventAttributes result 1 Payloads, workflow_execution 3 WorkflowExecution,
    workflow_type 4 WorkflowType, initiated_event_id 5 int64, started_event_id 6 int64
ChildWorkflowExecutionFailedEventAttributes failure 1 Failure, workflow_execution 3 WorkflowExecution, workflow_type
    4 WorkflowType, initiated_event_id 5 int64, started_event_id 6 int64
ChildWorkflowExecutionCanceledEventAttributes workflow_execution 3 WorkflowExecution, workflow_type 4 WorkflowType,
    initiated_event_id 5 int64, started_event_id 6 int64
ChildWorkflowExecutionTimedOutEventAttributes workflow_execution 2 WorkflowExecution, workflow_type 3 WorkflowType,
    initiated_event_id 4 int64, started_event_id 5 int64
ChildWorkflowExecutionTerminatedEventAttributes workflow_execution 2 WorkflowExecution, workflow_type 3
    WorkflowType, initiated_event_id 4 int64, started_event_id 5 int64
SignalExternalWorkflowExecutionInitiatedEventAttributes workflow_task_completed_event_id 1 int64, namespace 2
    string, workflow_execution 3 WorkflowExecution, signal_name 4 string, input 5 Payloads
SignalExternalWorkflowExecutionFailedEventAttributes cause 1 SignalFailedCause, workflow_execution 4
    WorkflowExecution, initiated_event_id 5 int64
ExternalWorkflowExecutionSignaledEventAttributes initiated_event_id 1 int64, workflow_execution 3 WorkflowExecution
History events 1 *HistoryEvent

PollWorkflowTaskQueueRequest namespace 1 string, task_queue 2 TaskQueue, identity 3 string
PollWorkflowTaskQueueResponse task_token 1 bytes, workflow_execution 2 WorkflowExecution, workflow_type 3
    WorkflowType, previous_started_event_id 4 int64, started_event_id 5 int64, attempt 6 int32, history 8 History,
    next_page_token 9 bytes, query 10 WorkflowQuery, scheduled_time 12 Timestamp, started_time 13 Timestamp, queries 14
    >WorkflowQuery
RespondWorkflowTaskCompletedRequest task_token 1 bytes, commands 2 *Command, identity 3 string, sticky_attributes 4
    StickyExecutionAttributes, query_results 8 >WorkflowQueryResult, namespace 9 string
RespondWorkflowTaskCompletedResponse reset_history_event_id 4 int64
RespondWorkflowTaskFailedRequest task_token 1 bytes, cause 2 WorkflowTaskFailedCause, failure 3 Failure, identity 4
    string, namespace 6 string
RespondWorkflowTaskFailedResponse
PollActivityTaskQueueRequest namespace 1 string, task_queue 2 TaskQueue, identity 3 string
PollActivityTaskQueueResponse task_token 1 bytes, workflow_namespace 2 string, workflow_type 3 WorkflowType,
    workflow_execution 4 WorkflowExecution, activity_type 5 ActivityType, activity_id 6 string, header 7 Header, input 8 Payloads,
    heartbeat_details 9 Payloads, scheduled_time 10 Timestamp, current_attempt_scheduled_time 11 Timestamp, started_time
    12 Timestamp, attempt 13 int32, schedule_to_close_timeout 14 Duration, start_to_close_timeout 15 Duration,
    heartbeat_timeout 16 Duration, retry_policy 17 RetryPolicy
RespondActivityTaskCompletedRequest task_token 1 bytes, result 2 Payloads, identity 3 string, namespace 4 string
RespondActivityTaskCompletedResponse
RespondActivityTaskFailedRequest task_token 1 bytes, failure 2 Failure, identity 3 string, namespace 4 string
RespondActivityTaskFailedResponse
RespondActivityTaskCanceledRequest task_token 1 bytes, details 2 Payloads, identity 3 string, namespace 4 string
RespondActivityTaskCanceledResponse
RecordActivityTaskHeartbeatRequest task_token 1 bytes, details 2 Payloads, identity 3 string, namespace 4 string
RecordActivityTaskHeartbeatResponse cancel_requested 1 bool
RespondQueryTaskCompletedRequest task_token 1 bytes, completed_type 2 QueryResultType, query_result 3 Payloads,
    error_message 4 string, namespace 6 string
RespondQueryTaskCompletedResponse
GetWorkflowExecutionHistoryRequest namespace 1 string, execution 2 WorkflowExecution, maximum_page_size 3 int32,
    next_page_token 4 bytes
GetWorkflowExecutionHistoryResponse history 1 History, next_page_token 3 bytes
ShutdownWorkerRequest namespace 1 string, sticky_task_queue 2 string, identity 3 string, reason 4 string
ShutdownWorkerResponse
GetSystemInfoRequest
GetSystemInfoResponse server_version 1 string
StartWorkflowExecutionRequest namespace 1 string, workflow_id 2 string, workflow_type 3 WorkflowType, task_queue 4
    TaskQueue, input 5 Payloads, identity 9 string, request_id 10 string, retry_policy 12 RetryPolicy, memo 14 Memo,
    search_attributes 15 SearchAttributes, header 16 Header
StartWorkflowExecutionResponse run_id 1 string
SignalWorkflowExecutionRequest namespace 1 string, workflow_execution 2 WorkflowExecution, signal_name 3 string, input 4
    Payloads, identity 5 string, request_id 6 string, header 8 Header
SignalWorkflowExecutionResponse
UpdateMeta update_id 1 string, identity 2 string
UpdateInput header 1 Header, name 2 string, args 3 Payloads
UpdateRequest meta 1 UpdateMeta, input 2 UpdateInput
UpdateWaitPolicy lifecycle_stage 1 UpdateStage
UpdateOutcome success 1 Payloads, failure 2 Failure
UpdateWorkflowExecutionRequest namespace 1 string, workflow_execution 2 WorkflowExecution, wait_policy 4 UpdateWaitPolicy,
    request 5 UpdateRequest
UpdateWorkflowExecutionResponse outcome 2 UpdateOutcome, stage 3 UpdateStage
QueryWorkflowRequest namespace 1 string, execution 2 WorkflowExecution, query 3 WorkflowQuery
QueryWorkflowResponse query_result 1 Payloads
RequestCancelWorkflowExecutionRequest namespace 1 string, workflow_execution 2 WorkflowExecution, identity 3 string,
    request_id 4 string
RequestCancelWorkflowExecutionResponse
TerminateWorkflowExecutionRequest namespace 1 string, workflow_execution 2 WorkflowExecution, reason 3 string, identity 5
    string
TerminateWorkflowExecutionResponse
WorkflowExecutionInfo execution 1 WorkflowExecution, type 2 WorkflowType, status 5 WorkflowExecutionStatus,
    history_length 6 int64
DescribeWorkflowExecutionRequest namespace 1 string, execution 2 WorkflowExecution
DescribeWorkflowExecutionResponse workflow_execution_info 2 WorkflowExecutionInfo
"""

# The members of an event that hold its attributes, in the order of their numbers, which begin with 6.
ATTRIBUTES = """
WorkflowExecutionStarted WorkflowExecutionCompleted WorkflowExecutionFailed WorkflowExecutionTimedOut
WorkflowTaskScheduled WorkflowTaskStarted WorkflowTaskCompleted WorkflowTaskTimedOut WorkflowTaskFailed
ActivityTaskScheduled ActivityTaskStarted ActivityTaskCompleted ActivityTaskFailed ActivityTaskTimedOut
TimerStarted TimerFired ActivityTaskCancelRequested ActivityTaskCanceled TimerCanceled MarkerRecorded
WorkflowExecutionSignaled WorkflowExecutionTerminated WorkflowExecutionCancelRequested WorkflowExecutionCanceled
RequestCancelExternalWorkflowExecutionInitiated RequestCancelExternalWorkflowExecutionFailed
ExternalWorkflowExecutionCancelRequested WorkflowExecutionContinuedAsNew
StartChildWorkflowExecutionInitiated StartChildWorkflowExecutionFailed ChildWorkflowExecutionStarted
ChildWorkflowExecutionCompleted ChildWorkflowExecutionFailed ChildWorkflowExecutionCanceled
ChildWorkflowExecutionTimedOut ChildWorkflowExecutionTerminated SignalExternalWorkflowExecutionInitiated
SignalExternalWorkflowExecutionFailed ExternalWorkflowExecutionSignaled
"""

FIELD = descriptor_pb2.FieldDescriptorProto
PLAIN = {name: getattr(FIELD, "TYPE_" + name.upper()) for name in ("string", "bytes", "bool", "int32", "int64", "double")}
KNOWN = {"Duration": ".google.protobuf.Duration", "Timestamp": ".google.protobuf.Timestamp"}


def snake(name):
    return "".join("_" + letter.lower() if letter.isupper() else letter for letter in name)[1:]


def lines_of(text):
    """Returns the lines of a table."""
    return [line for line in text.replace("\n    ", " ").splitlines() if line]


def event_line():
    """Returns the line of the message of an event."""
    fields = ["event_id 1 int64", "event_time 2 Timestamp", "event_type 3 EventType", "worker_may_ignore 300 bool"]
    names = [name + "EventAttributes" for name in ATTRIBUTES.split()]
    fields += [f"{snake(name)} {number} {name}" for number, name in enumerate(names, 6)]
    return "HistoryEvent " + ", ".join(fields)


def add_enum(file, line):
    """Adds the enum of a line. A number in it is that of the value after it."""
    name, prefix, *words = line.split()
    enum, number = file.enum_type.add(name=name), 0
    for word in words:
        if word.isdigit():
            number = int(word)
        else:
            enum.value.add(name=prefix + word, number=number)
            number += 1
    return name


def set_type(field, word, enums):
    """Sets the type of a field from a word."""
    if word in PLAIN:
        field.type = PLAIN[word]
    else:
        field.type = FIELD.TYPE_ENUM if word in enums else FIELD.TYPE_MESSAGE
        field.type_name = KNOWN.get(word, f".{PACKAGE}.{word}")


def add_message(file, line, enums):
    """Adds the message of a line."""
    name, _, rest = line.partition(" ")
    message = file.message_type.add(name=name)
    for part in filter(None, rest.split(", ")):
        field_name, number, word = part.split()
        is_list = word[0] in "*>"
        label = FIELD.LABEL_REPEATED if is_list else FIELD.LABEL_OPTIONAL
        field = message.field.add(name=field_name, number=int(number), label=label)
        if word[0] == ">":
            entry = message.nested_type.add(name="".join(map(str.capitalize, field_name.split("_"))) + "Entry")
            entry.options.map_entry = True
            entry.field.add(name="key", number=1, label=FIELD.LABEL_OPTIONAL, type=FIELD.TYPE_STRING)
            set_type(entry.field.add(name="value", number=2, label=FIELD.LABEL_OPTIONAL), word[1:], enums)
            set_type(field, f"{name}.{entry.name}", enums)
        else:
            set_type(field, word.lstrip("*"), enums)


def build():
    """Returns the classes of all messages, by their names."""
    file = descriptor_pb2.FileDescriptorProto(name="standin.proto", package=PACKAGE, syntax="proto3")
    file.dependency.extend([duration_pb2.DESCRIPTOR.name, timestamp_pb2.DESCRIPTOR.name])
    enums = {add_enum(file, line) for line in lines_of(ENUMS)}
    lines = lines_of(MESSAGES) + [event_line()]
    for line in lines:
        add_message(file, line, enums)
    pool = descriptor_pool.Default()
    pool.AddSerializedFile(file.SerializeToString())
    found = {line.split()[0]: pool.FindMessageTypeByName(f"{PACKAGE}.{line.split()[0]}") for line in lines}
    if hasattr(message_factory, "GetMessageClass"):
        return {name: message_factory.GetMessageClass(one) for name, one in found.items()}
    factory = message_factory.MessageFactory(pool)
    return {name: factory.GetPrototype(one) for name, one in found.items()}


CLASSES = build()
