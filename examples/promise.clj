; A promise holds its first value for good; whoever takes gets it, as often as they like.
(def settings (promise-chan))

(defn start [name]
  (go (let [all (<! settings)]
        [name (get all :level)])))

(def starting [(start "reader") (start "writer") (start "log")])
(>!! settings {:level 3})
(println (>!! settings {:level 9}) "and the first value stays")

(doseq [c starting]
  (println (<!! c)))
(println (<!! settings) (<!! settings))
