; A source that is faster than its reader never waits: a sliding buffer keeps the newest readings, a dropping one the
; oldest.
(def newest (chan (sliding-buffer 3)))
(def oldest (chan (dropping-buffer 3)))

(doseq [n (range 10)]
  (>!! newest n)
  (>!! oldest n))
(close! newest)
(close! oldest)

(println "the newest" (<!! (into [] newest)))
(println "the oldest" (<!! (into [] oldest)))
