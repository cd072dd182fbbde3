# A server of an examination: the program on a free port, with a token. Its process and its address.
started <- function(exam, token) {
  errors <- tempfile("server")
  journal <- tempfile("journal")
  script <- sprintf("SHADOWD_JOURNAL=%s SHADOWD_LISTEN=127.0.0.1:0 SHADOWD_WORKERS=1 SHADOWD_TOKEN=%s %s serve %s %s > /dev/null 2> %s & echo $!",
                    shQuote(journal), token, shQuote(Sys.getenv("SHADOWD")), shQuote(exam$bank), shQuote(exam$plan), shQuote(errors))
  process <- as.integer(system(script, intern = TRUE))
  for (time in 1:200) {
    line <- grep("listening on ", readLines(errors, warn = FALSE), value = TRUE)
    if (length(line)) break
    Sys.sleep(0.05)
  }
  list(process = process, url = paste0("http://", sub(".*listening on ([0-9.:]+).*", "\\1", line[1])), journal = journal)
}

# A copy of a journal that a server has open.
copy_of <- function(path) {
  copy <- tempfile("copy")
  file.copy(path, copy)
  copy
}

test_that("a whole session over HTTP, its score, and what a server refuses", {
  token <- "0123456789abcdef0123456789abcdef"
  exam <- shared_exam()
  server <- started(exam, token)
  on.exit(tools::pskill(server$process))
  client <- shadow_client(server$url, token = token, map = exam$map)
  place <- shadow_begin(client, 9007199254740991, without = c("001", "002"))
  expect_identical(place$state, "waiting")
  served <- character()
  while (place$state == "waiting") {
    expect_identical(place$id, some_items()$ID[place$item + 1])
    served <- c(served, place$id)
    place <- shadow_answer(client, place$session, place$step, 1, 9007199254740991)
  }
  expect_identical(place$state, "complete")
  expect_length(served, 5)
  expect_false(any(c("001", "002") %in% served))
  expect_equal(shadow_health(client)$open, 0)

  other <- shadow_begin(client, 8)
  refused <- tryCatch(shadow_answer(client, other$session, 0, 1, 9), shadow_reply = identity)
  expect_identical(refused$error, "other-booking")
  expect_identical(refused$status, 409L)
  expect_identical(shadow_close(client, other$session, 8)$state, "closed")
  expect_identical(shadow_close(client, other$session, 8)$state, "closed")
  expect_identical(shadow_place(client, other$session)$state, "closed")
  expect_error(shadow_close(client, 0, 9007199254740991), "is-closed complete", class = "shadow_reply")
  expect_error(shadow_begin(shadow_client(server$url, token = ""), 10), "401 unauthorized", class = "shadow_reply")

  asked <- character()
  turned <- function(item) if (length(asked <<- c(asked, item)) == 3) stop("the line is lost") else length(asked) %% 2
  expect_error(shadow_cat(client, 11, turned), "the line is lost")
  left <- shadow_record(exam, copy_of(server$journal), 2)
  expect_identical(left$state, "open")
  expect_identical(left$steps$item, asked)
  expect_identical(left$steps$response, c(1L, 0L, NA))
  rest <- shadow_cat(client, 11, function(item) 1)
  expect_identical(rest[c("booking", "session", "state")], list(booking = 11, session = 2L, state = "complete"))
  expect_identical(rest$steps$step, 2:4)
  expect_identical(rest$steps$item[1], asked[3])
  whole <- shadow_record(exam, copy_of(server$journal), 2)
  expect_identical(whole$steps$item, c(asked[1:2], rest$steps$item))
  expect_identical(whole$steps$response, c(1L, 0L, 1L, 1L, 1L))
  found <- shadow_eap(exam, whole$steps$item, whole$steps$response)
  expect_equal(whole$steps$eap[5], found[["eap"]])

  tools::pskill(server$process)
  Sys.sleep(0.5)
  scored <- shadow_score(exam, server$journal)
  expect_identical(scored$booking, c("9007199254740991", "8", "11"))
  expect_lt(abs(whole$steps$eap[5] - scored$eap[3]), 5.1e-5)
  expect_lt(abs(shadow_eap(exam, served, rep(1, 5))[["eap"]] - scored$eap[1]), 5.1e-5)
})

test_that("numbers that R has not exactly are refused before anything is sent", {
  client <- shadow_client("http://127.0.0.1:9")
  expect_error(shadow_begin(client, 2^53), "above 2\\^53 - 1", class = "shadow_refused")
  expect_error(shadow_begin(client, 1.5), "one whole number", class = "shadow_refused")
  expect_error(shadow_begin(client, "70"), "one whole number", class = "shadow_refused")
  expect_error(shadow_client("127.0.0.1:9"), "begins with http", class = "shadow_refused")
})

test_that("a server that is not there is asked four times, and named", {
  expect_error(shadow_health(shadow_client("http://127.0.0.1:9")), "no reply after 4 messages", class = "shadow_lost")
})
