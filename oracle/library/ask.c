/* Asks a client library, over the server of serve.py, what it does with bound columns: ask SOCKET. */

#include <mysql.h>
#include <stdio.h>
#include <stdlib.h>
#include <string.h>
#include <sys/wait.h>
#include <unistd.h>

#ifdef MARIADB_BASE_VERSION
typedef my_bool mark;
#else
#include <stdbool.h>
typedef bool mark;
#endif

#define ROOM 64

struct place {
  unsigned char bytes[ROOM];
  unsigned long length;
  mark null, error;
};

static MYSQL *connection;

static void bind_to(MYSQL_BIND *bind, struct place *place, int code, int is_unsigned, unsigned long room) {
  memset(bind, 0, sizeof *bind);
  memset(place->bytes, 0xDB, ROOM);
  place->length = 777;
  place->null = 0;
  place->error = 0;
  bind->buffer_type = code;
  bind->buffer = place->bytes;
  bind->buffer_length = room;
  bind->length = &place->length;
  bind->is_null = &place->null;
  bind->error = &place->error;
  bind->is_unsigned = is_unsigned;
}

static void show(const char *what, int answer, MYSQL_STMT *statement, struct place *place, int count) {
  printf("  %s: %d, errno %u, length %lu, null %d, error %d, bytes", what, answer, mysql_stmt_errno(statement), place->length, place->null, place->error);
  for (int i = 0; i < count; i++) {
    if (place->bytes[i] == 0xDB) printf(" ..");
    else printf(" %02x", place->bytes[i]);
  }
  printf("\n");
}

static MYSQL_STMT *prepare(const char *text) {
  MYSQL_STMT *statement = mysql_stmt_init(connection);
  if (mysql_stmt_prepare(statement, text, strlen(text))) {
    printf("  prepare: errno %u %s\n", mysql_stmt_errno(statement), mysql_stmt_error(statement));
  }
  return statement;
}

static void execute(MYSQL_STMT *statement, int store) {
  if (mysql_stmt_execute(statement)) printf("  execute: errno %u %s\n", mysql_stmt_errno(statement), mysql_stmt_error(statement));
  if (store && mysql_stmt_store_result(statement)) printf("  store_result: errno %u\n", mysql_stmt_errno(statement));
}

static void texts(void) {
  printf("a text in a place of 8: 5 letters, 8, 9, null, none, then the end, twice\n");
  MYSQL_STMT *statement = prepare("253:0;0000056161616161;0000086262626262626262;0000096363636363636363" "63;0004;000000");
  MYSQL_BIND bind;
  struct place place;
  bind_to(&bind, &place, 253, 0, 8);
  printf("  bind: %d\n", mysql_stmt_bind_result(statement, &bind));
  execute(statement, 1);
  for (int i = 0; i < 7; i++) {
    int answer = mysql_stmt_fetch(statement);
    show("fetch", answer, statement, &place, 12);
    memset(place.bytes, 0xDB, ROOM);
    place.length = 777;
    place.error = 1;
  }
  mysql_stmt_close(statement);
}

static void columns(void) {
  printf("column fetches of a text of 9 letters a to i, then of a null\n");
  MYSQL_STMT *statement = prepare("253:0;000009616263646566676869;0004");
  MYSQL_BIND bind, part;
  struct place place, piece;
  bind_to(&bind, &place, 253, 0, 1);
  bind_to(&part, &piece, 253, 0, 4);
  mysql_stmt_bind_result(statement, &bind);
  execute(statement, 1);
  show("before any fetch", mysql_stmt_fetch_column(statement, &part, 0, 0), statement, &piece, 6);
  show("fetch", mysql_stmt_fetch(statement), statement, &place, 4);
  unsigned long offsets[] = {0, 1, 4, 5, 6, 8, 9, 20};
  for (int i = 0; i < 8; i++) {
    char what[32];
    sprintf(what, "4 bytes from %lu on", offsets[i]);
    bind_to(&part, &piece, 253, 0, 4);
    show(what, mysql_stmt_fetch_column(statement, &part, 0, offsets[i]), statement, &piece, 6);
  }
  bind_to(&part, &piece, 253, 0, 4);
  show("column 1 of 1", mysql_stmt_fetch_column(statement, &part, 1, 0), statement, &piece, 6);
  show("fetch of null", mysql_stmt_fetch(statement), statement, &place, 4);
  bind_to(&part, &piece, 253, 0, 4);
  piece.error = 1;
  show("column fetch of null", mysql_stmt_fetch_column(statement, &part, 0, 0), statement, &piece, 6);
  printf("  fetch: %d\n", mysql_stmt_fetch(statement));
  bind_to(&part, &piece, 253, 0, 4);
  show("after the end", mysql_stmt_fetch_column(statement, &part, 0, 0), statement, &piece, 6);
  mysql_stmt_close(statement);
}

static void convert(const char *what, const char *text, int code, int is_unsigned, unsigned long room, int count) {
  MYSQL_STMT *statement = prepare(text);
  MYSQL_BIND bind;
  struct place place;
  bind_to(&bind, &place, code, is_unsigned, room);
  int refused = mysql_stmt_bind_result(statement, &bind);
  if (refused) {
    printf("  %s: bind %d, errno %u\n", what, refused, mysql_stmt_errno(statement));
  } else {
    execute(statement, 1);
    show(what, mysql_stmt_fetch(statement), statement, &place, count);
  }
  mysql_stmt_close(statement);
}

static void conversions(void) {
  printf("fields at their own code and at others\n");
  convert("short -1 as short", "2:0;0000ffff", 2, 0, 2, 4);
  convert("short -1 as unsigned short", "2:0;0000ffff", 2, 1, 2, 4);
  convert("unsigned short 65535 as short", "2:32;0000ffff", 2, 0, 2, 4);
  convert("unsigned bigint 2^63 as bigint", "8:32;00000000000000000080", 8, 0, 8, 10);
  convert("bigint -1 as unsigned bigint", "8:0;0000ffffffffffffffff", 8, 1, 8, 10);
  convert("long 70000 as short", "3:0;000070110100", 2, 0, 2, 4);
  convert("double 1.5 as long", "5:0;0000000000000000f83f", 3, 0, 4, 6);
  convert("double 1e300 as bigint", "5:0;00009c7500883ce4377e", 8, 0, 8, 10);
  convert("double as double", "5:0;0000000000000000f83f", 5, 0, 8, 10);
  convert("float as float", "4:0;00000000c03f", 4, 0, 4, 6);
  convert("text 12x as long", "253:0;000003313278", 3, 0, 4, 6);
  convert("text 12 as long", "253:0;0000023132", 3, 0, 4, 6);
  convert("long 123 as text in 8", "3:0;00007b000000", 253, 0, 8, 8);
  convert("long 123 as text in 2", "3:0;00007b000000", 253, 0, 2, 8);
  convert("double 0.1 as text in 1", "5:0;00009a9999999999b93f", 254, 0, 1, 4);
  convert("double 0.1 as text in 8", "5:0;00009a9999999999b93f", 254, 0, 8, 10);
  convert("double 123.456 as text in 1", "5:0;000077be9f1a2fdd5e40", 254, 0, 1, 4);
  convert("double 123.456 as text in 5", "5:0;000077be9f1a2fdd5e40", 254, 0, 5, 8);
  convert("double 123.456 as text in 30", "5:0;000077be9f1a2fdd5e40", 254, 0, 30, 12);
  convert("float 1.5 as text in 1", "4:0;00000000c03f", 254, 0, 1, 4);
  convert("decimal 12.99 as text", "246:0;0000053132" "2e3939", 246, 0, 8, 8);
  convert("decimal 12.99 as double", "246:0;0000053132" "2e3939", 5, 0, 8, 10);
  convert("datetime of 7 as datetime", "12:0;000007ea07090f16030a", 12, 0, 48, 48);
  convert("datetime of 0 as datetime", "12:0;000000", 12, 0, 48, 48);
  convert("date of 4 as date", "10:0;000004ea07090f", 10, 0, 48, 48);
  convert("time of 8, negative, a day and 2:03:04", "11:0;000008010100000002" "0304", 11, 0, 48, 48);
  convert("datetime as date", "12:0;000007ea07090f16030a", 10, 0, 48, 48);
  convert("datetime as text in 8", "12:0;000007ea07090f16030a", 253, 0, 8, 10);
  convert("year 2026 as year", "13:32;0000ea07", 13, 1, 2, 4);
  convert("medium -2 as medium", "9:0;0000feffffff", 9, 0, 4, 6);
  convert("tiny -1 as tiny", "1:0;0000ff", 1, 0, 1, 3);
  convert("bit as bit", "16:32;0000020102", 16, 1, 8, 6);
  convert("text in a place of 0", "253:0;000003616263", 253, 0, 0, 4);
}

static void codes(void) {
  printf("codes at which a text column can be bound:");
  for (int code = 0; code < 256; code++) {
    MYSQL_STMT *statement = prepare("253:0;0000023132");
    MYSQL_BIND bind;
    struct place place;
    bind_to(&bind, &place, code, 0, 48);
    if (mysql_stmt_bind_result(statement, &bind) == 0) printf(" %d", code);
    else if (mysql_stmt_errno(statement) != 2036) printf(" (%d: errno %u)", code, mysql_stmt_errno(statement));
    mysql_stmt_close(statement);
  }
  printf("\n");
}

static void own_codes(void) {
  printf("codes at which a column of that code can be bound:");
  for (int code = 0; code < 256; code++) {
    char text[16];
    sprintf(text, "%d:0;", code);
    MYSQL_STMT *statement = prepare(text);
    MYSQL_BIND bind;
    struct place place;
    bind_to(&bind, &place, code, 0, 48);
    if (mysql_stmt_bind_result(statement, &bind) == 0) printf(" %d", code);
    else if (mysql_stmt_errno(statement) != 2036) printf(" (%d: errno %u)", code, mysql_stmt_errno(statement));
    mysql_stmt_close(statement);
  }
  printf("\n");
}

static void lingering(void) {
  printf("the error number after a refused column fetch\n");
  MYSQL_STMT *statement = prepare("253:0;00000161;00000162");
  MYSQL_BIND bind;
  struct place place;
  bind_to(&bind, &place, 253, 0, 8);
  mysql_stmt_bind_result(statement, &bind);
  execute(statement, 1);
  int answer = mysql_stmt_fetch_column(statement, &bind, 0, 0);
  printf("  column fetch before any row: %d, errno %u\n", answer, mysql_stmt_errno(statement));
  answer = mysql_stmt_fetch(statement);
  printf("  fetch: %d, errno %u\n", answer, mysql_stmt_errno(statement));
  answer = mysql_stmt_fetch_column(statement, &bind, 0, 0);
  printf("  column fetch: %d, errno %u\n", answer, mysql_stmt_errno(statement));
  answer = mysql_stmt_bind_result(statement, &bind);
  printf("  bind: %d, errno %u\n", answer, mysql_stmt_errno(statement));
  mysql_stmt_close(statement);
}

static void failures(int store) {
  printf("a row, then an error packet with 1213 in place of one; %s\n", store ? "stored first, as the crate does" : "not stored");
  MYSQL_STMT *statement = prepare("253:0;00000161;E1213");
  MYSQL_BIND bind;
  struct place place;
  bind_to(&bind, &place, 253, 0, 8);
  mysql_stmt_bind_result(statement, &bind);
  execute(statement, store);
  for (int i = 0; i < 4 && !store; i++) {
    int answer = mysql_stmt_fetch(statement);
    show("fetch", answer, statement, &place, 4);
    printf("    its text: \"%s\"\n", mysql_stmt_error(statement));
  }
  mysql_stmt_close(statement);
}

static void unbound(void) {
  printf("a fetch without a bind\n");
  MYSQL_STMT *statement = prepare("253:0;00000161");
  execute(statement, 1);
  int answer = mysql_stmt_fetch(statement);
  printf("  fetch: %d, errno %u\n", answer, mysql_stmt_errno(statement));
  mysql_stmt_close(statement);
}

static void fields(void) {
  MYSQL_STMT *statement = prepare("253:65535,3:32,13:96;");
  MYSQL_RES *result = mysql_stmt_result_metadata(statement);
  MYSQL_FIELD *field = mysql_fetch_fields(result);
  printf("flags of fields sent as 65535, 32 and 96: %u %u %u\n", field[0].flags, field[1].flags, field[2].flags);
  mysql_free_result(result);
  mysql_stmt_close(statement);
}

static void connect_to(const char *path) {
  connection = mysql_init(NULL);
  if (!mysql_real_connect(connection, NULL, "u", "", NULL, 0, path, 0)) {
    fprintf(stderr, "no connection: %s\n", mysql_error(connection));
    exit(1);
  }
}

/* A column fetch without a bind, in a process of its own, since it may end there. */
static void unbound_column(const char *path) {
  printf("a column fetch without a bind\n");
  if (fork() == 0) {
    connect_to(path);
    MYSQL_STMT *statement = prepare("253:0;00000161");
    MYSQL_BIND part;
    struct place piece;
    bind_to(&part, &piece, 253, 0, 4);
    execute(statement, 1);
    mysql_stmt_fetch(statement);
    show("column fetch", mysql_stmt_fetch_column(statement, &part, 0, 0), statement, &piece, 6);
    mysql_close(connection);
    exit(0);
  }
  int status;
  wait(&status);
  if (WIFSIGNALED(status)) printf("  crashes\n");
}

int main(int count, char **words) {
  setvbuf(stdout, NULL, _IOLBF, 0);
  if (count != 2) return 1;
  connect_to(words[1]);
  printf("%s, a time has %zu bytes\n", mysql_get_client_info(), sizeof(MYSQL_TIME));
  fields();
  texts();
  columns();
  conversions();
  codes();
  own_codes();
  unbound();
  lingering();
  failures(1);
  mysql_close(connection);
  connect_to(words[1]);
  failures(0);
  mysql_close(connection);
  unbound_column(words[1]);
  return 0;
}
