; A mix puts what comes on several channels on one; the muted one is taken from, and what it gives is let go.
(def out (chan))
(def m (mix out))
(def voice (chan))
(def noise (chan))
(toggle m {voice {} noise {:mute true}})

(def heard (into [] (take 3 out)))

(doseq [line ["one" "two" "three"]]
  (>!! noise (str "not " line))
  (>!! voice line))

(println (<!! heard))
