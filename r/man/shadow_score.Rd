\name{shadow_score}
\alias{shadow_score}
\title{Results of a journal}
\description{Audits a journal and scores it by the command \code{shadow score}.}
\usage{
shadow_score(exam, journal, estimate = "eap", scale = c(0, 1), cuts = NULL,
             levels = NULL, open = FALSE, record = NULL)
}
\arguments{
  \item{exam}{an examination of \code{\link{shadow_bank}}.}
  \item{journal}{the path of the journal.}
  \item{estimate}{\code{"eap"}, \code{"mode"}, \code{"wle"} or \code{"mle"}.}
  \item{scale}{A and B of the reported scale A + B times ability.}
  \item{cuts, levels}{cut scores on that scale, and the names of the levels, the lowest first.}
  \item{open}{whether sessions are scored that are not ended.}
  \item{record}{a path where the record of the scores is kept, for \code{\link{shadow_report}}.}
}
\value{A data frame with a row for each session. \code{booking} is a character: bookings go up to 2^64.
  The attribute \code{answers} is a data frame of the answers, \code{record} a list of what the scores were made of.}
\examples{
\dontrun{
results <- shadow_score(exam, "window.journal", scale = c(500, 100), cuts = c(450, 550))
}
}
