\name{shadow_record}
\alias{shadow_record}
\title{What happened in a session}
\description{Gives the steps of a session from its journal, which is audited, by the command \code{shadow score}.}
\usage{
shadow_record(exam, journal, session)
}
\arguments{
  \item{exam}{an examination of \code{\link{shadow_bank}}.}
  \item{journal}{the path of the journal. It is read, and not locked: take a copy where a server runs on it.}
  \item{session}{the number of the session, from 0 on.}
}
\details{The estimates are computed in R from the bank's whole numbers. The last ones are those of \code{\link{shadow_score}}.}
\value{A list: \code{booking}, a character; \code{session}; \code{state}, which is \code{"open"}, \code{"complete"} or \code{"closed"}; and
  \code{steps}, a data frame with \code{step}, \code{item} and \code{response}, and after that response the greatest point of the
  posterior in \code{mode} (the server's own estimate), its mean in \code{eap} and its deviation in \code{posterior_sd}. An item that waits for
  its response is the last step, with \code{NA}.}
\examples{
\dontrun{
shadow_record(exam, "window.journal", session = 0)$steps
}
}
