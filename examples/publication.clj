; A publication sorts events by their kind, and passes each on to who subscribed to it.
(def events (chan))
(def by-kind (pub events :kind))

(def orders (chan))
(def errors (chan))
(sub by-kind :order orders)
(sub by-kind :error errors)

(def taken (into [] orders))
(def wrong (into [] errors))

(>!! events {:kind :order :of "tea"})
(>!! events {:kind :note :text "nobody hears this"})
(>!! events {:kind :error :text "no milk"})
(>!! events {:kind :order :of "bread"})
(close! events)

(println "orders" (<!! taken))
(println "errors" (<!! wrong))
